#!/usr/bin/env python3
"""How long reports take of systems as large as the format lets them be in parts (tools/parts/large.py), in seconds of the processor, beside
`verify`, and how large they are.

  tools/report/large.py TOOL"""

import importlib.util
import resource
import subprocess
import sys
import tempfile
from pathlib import Path

ROOT = Path(__file__).resolve().parents[2]


def systems():
    """The script that writes them."""
    spec = importlib.util.spec_from_file_location("large_systems", ROOT / "tools/parts/large.py")
    module = importlib.util.module_from_spec(spec)
    spec.loader.exec_module(module)
    return module


def seconds(*words: str) -> float:
    """What the program takes."""
    before = resource.getrusage(resource.RUSAGE_CHILDREN).ru_utime
    subprocess.run(words, stdout=subprocess.DEVNULL, check=True)
    return resource.getrusage(resource.RUSAGE_CHILDREN).ru_utime - before


def main(tool: str) -> None:
    """A line for each kind."""
    module = systems()
    with tempfile.TemporaryDirectory(prefix="microsys.") as room_name:
        room = Path(room_name)
        text, image, page = (str(room / it) for it in ("it.txt", "it.img", "it.html"))
        for kind in module.KINDS:
            Path(text).write_text(module.system(kind), "ascii")
            seconds(tool, "build", text, image)
            verified, reported = seconds(tool, "verify", image), seconds(tool, "report", image, page)
            print(f"{kind}: verify {verified:.2f} s, report {reported:.2f} s, {Path(page).stat().st_size} bytes", flush=True)


if __name__ == "__main__":
    main(sys.argv[1])
