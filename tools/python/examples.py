#!/usr/bin/env python3
"""Runs the examples of docs/PYTHON.md: tools/python/examples.py FOLDER, which has `thermostat.txt` and `gateway.txt`.

What a reader has as `thermostat.sys` is there a text of the same names, so that nothing is compiled again; the serial line is a
pseudo-terminal. Of pytest there is as much here as the tests use.
"""

import contextlib
import io
import os
import re
import socket
import sys
import threading
import time
import tty
import types
from pathlib import Path

HERE = Path(__file__).resolve().parent
sys.dont_write_bytecode = True
sys.path[:0] = [str(HERE), str(HERE.parents[1] / "samples" / "live" / "gateway")]
from gateway import unframed  # noqa: E402


def blocks(folder):
    """The examples, with the systems of the folder."""
    said = (HERE.parents[1] / "docs" / "PYTHON.md").read_text("utf-8")
    found = re.findall(r"(?:^    .*\n|^\n(?=    ))+", said, re.M)
    code = ["".join(line[4:] or "\n" for line in it.splitlines(True)) for it in found if "import System" in it]
    return [re.sub(r'"(\w+)\.sys"', lambda it: repr(str(folder / f"{it[1]}.txt")), it) for it in code]


def run_first(code):
    """20.31 degrees are below 20.5, so the heater is on."""
    with contextlib.redirect_stdout(io.StringIO()) as said:
        exec(code, {})
    assert said.getvalue() == "1000\n", said.getvalue()


def run_tests(code):
    """Calls each test with each of its parameters."""
    pytest = types.ModuleType("pytest")
    pytest.fixture = contextlib.contextmanager
    pytest.mark = types.SimpleNamespace(parametrize=lambda _, values: lambda test: setattr(test, "values", values) or test)
    sys.modules["pytest"] = pytest
    names = {}
    exec(code, names)
    tests = [it for name, it in names.items() if name.startswith("test_")]
    for test in tests:
        for value in getattr(test, "values", [None]):
            with names["system"]() as system:
                test(system) if value is None else test(system, value)
    return len(tests)


def run_service(code):
    """The line gets the office's bytes in whole frames."""
    master, slave = os.openpty()
    tty.setraw(slave)
    with socket.create_server(("127.0.0.1", 0)) as free:
        port = free.getsockname()[1]
    code = code.replace('("", 4000)', f'("127.0.0.1", {port})').replace('"/dev/ttyUSB0"', repr(os.ttyname(slave)))
    service = threading.Thread(target=exec, args=(code, {}), daemon=True)
    service.start()
    data = bytes(it * it % 256 for it in range(3000))
    with connected(port) as office:
        office.sendall(data)
        came, rest = b"", b""
        while len(came) < len(data):
            *frames, rest = (rest + os.read(master, 4096)).split(b"\0")
            came += b"".join(map(unframed, frames))
    service.join()
    assert came == data


def connected(port):
    """A connection to the service, as soon as it listens."""
    for _ in range(600):
        with contextlib.suppress(ConnectionRefusedError):
            return socket.create_connection(("127.0.0.1", port))
        time.sleep(0.1)
    raise TimeoutError


def main():
    first, tests, service = blocks(Path(sys.argv[1]).resolve())
    run_first(first)
    count = run_tests(tests)
    run_service(service)
    print(f"docs/PYTHON.md: its {count} tests and its service do as it says")
    return 0


if __name__ == "__main__":
    sys.exit(main())
