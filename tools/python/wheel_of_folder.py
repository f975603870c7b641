"""Makes a wheel of this folder for pip (PEP 517), with the standard library alone: so an installation needs no network.

The fields that a wheel says of itself are those of `pyproject.toml` ("Core metadata specifications" and "Binary distribution format"
of the Python Packaging User Guide).
"""

import base64
import hashlib
import re
import zipfile
from pathlib import Path

HERE = Path(__file__).resolve().parent
PACKAGE = "microsys"


def field(name):
    """A field of the project, which is a line of text."""
    said = (HERE / "pyproject.toml").read_text("utf-8")
    return re.search(rf'^{name} = (?:{{ text = )?"(.*?)"', said, re.M)[1]


def build_wheel(wheel_directory, config_settings=None, metadata_directory=None):
    """Writes the wheel, and gives its name."""
    about = f"{PACKAGE}-{field('version')}.dist-info"
    metadata = {
        "Metadata-Version": "2.1", "Name": PACKAGE, "Version": field("version"), "Summary": field("description"),
        "License": field("license"), "Requires-Python": field("requires-python"),
    }
    wheel = {"Wheel-Version": "1.0", "Generator": "wheel_of_folder", "Root-Is-Purelib": "true", "Tag": "py3-none-any"}
    files = {f"{PACKAGE}/{file.name}": file.read_bytes() for file in sorted((HERE / PACKAGE).iterdir()) if file.suffix in (".py", ".typed")}
    for name, fields in (("METADATA", metadata), ("WHEEL", wheel)):
        files[f"{about}/{name}"] = "".join(f"{key}: {said}\n" for key, said in fields.items()).encode()
    record = "".join(f"{name},sha256={digest(data)},{len(data)}\n" for name, data in files.items())
    files[f"{about}/RECORD"] = f"{record}{about}/RECORD,,\n".encode()
    target = f"{PACKAGE}-{field('version')}-py3-none-any.whl"
    with zipfile.ZipFile(Path(wheel_directory) / target, "w", zipfile.ZIP_DEFLATED) as archive:
        for name, data in files.items():
            archive.writestr(name, data)
    return target


def digest(data):
    return base64.urlsafe_b64encode(hashlib.sha256(data).digest()).rstrip(b"=").decode()
