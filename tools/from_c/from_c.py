#!/usr/bin/env python3
"""Makes a text that can be certified of a description whose threads' programs are C sources.

    tools/from_c/from_c.py SRC OUT [--certifier PROGRAM]

SRC is a text of `microsys build` in which a thread has a line `program FILE.c .. [checked] [data ADDRESS] [stack ADDRESS]`
in the place of its instructions; files are named from SRC's folder. docs/FROM_C.md has the whole.
"""

from __future__ import annotations

import argparse
import sys
from pathlib import Path

sys.dont_write_bytecode = True

from attempts import Certifier, accepted  # noqa: E402
from building import Folder, built, written  # noqa: E402
from description import read  # noqa: E402
from faults import Fault, Place, Refused  # noqa: E402
from machine_code import NoCompiler  # noqa: E402


def convert(source: Path, prefix: str, certifier: str | None) -> str:
    """The text of a description with the programs in their places."""
    described, folder = read(text_of(source), source.name), Folder(source.parent, prefix)
    programs = built(described, folder)
    if certifier:
        programs = accepted(programs, described, folder, Certifier(certifier, source.stem))
    text = written(described, programs)
    for it in programs:
        sizes = f"{it.program.stack} bytes of stack, {len(it.data)} of data"
        print(f"{it.thread.name}: {len(it.program.lines)} instructions, {sizes}")
        for note in (*it.notes, *it.advice):
            print(note)
    return text


def text_of(source: Path) -> str:
    """The text of a file."""
    try:
        return source.read_bytes().decode()
    except UnicodeDecodeError as error:
        line = error.object[: error.start].count(b"\n") + 1
        raise Fault(Place(source.name, line), "this is not UTF-8") from error


def main() -> int:
    """The command."""
    parser = argparse.ArgumentParser(description="Makes a text that can be certified of a description with C programs.")
    parser.add_argument("source", type=Path, metavar="SRC", help="the description")
    parser.add_argument("made", type=Path, metavar="OUT", help="the text to be written")
    parser.add_argument("--certifier", help="the program that certifies: what it refuses is compiled in other ways")
    parser.add_argument("--prefix", default="riscv64-unknown-elf-", help="what the names of gcc's programs begin with")
    words = parser.parse_args()
    if words.made.exists() and (words.made.samefile(words.source) or words.made.suffix in (".c", ".h")):
        print(f"{words.made} is a source: nothing is written there", file=sys.stderr)
        return 2
    try:
        text = convert(words.source, words.prefix, words.certifier)
        words.made.write_text(text)
    except Fault as fault:
        print(fault, file=sys.stderr)
        return 1
    except Refused:
        return 1
    except (NoCompiler, OSError) as error:
        print(error if isinstance(error, NoCompiler) else f"{error.filename}: {error.strerror}", file=sys.stderr)
        return 3
    return 0


if __name__ == "__main__":
    sys.exit(main())
