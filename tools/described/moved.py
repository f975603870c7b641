#!/usr/bin/env python3
"""Events of one image for another that has the same names at other addresses.

  tools/described/moved.py TEXT IMAGE OTHER_TEXT OTHER_IMAGE <EVENTS

Each address of a `write` or `read` is in an object that TEXT names, and becomes the place in the object of that name in OTHER_IMAGE. Of the
texts only the names are read, so that OTHER_TEXT can be one without certificates.
"""

import os
import re
import sys

sys.path.insert(0, os.path.join(os.path.dirname(os.path.realpath(__file__)), "..", "damage"))
sys.dont_write_bytecode = True
from rules import check_objects, read  # noqa: E402

MEMORY, PAGE = 0x80000000, 4096


def places(text, image):
    """Where objects lie, by their names."""
    with open(text, encoding="utf-8") as names, open(image, "rb") as data:
        found = read(data.read())
        check_objects(found)
        return dict(zip(re.findall(r"^object (\S+)", names.read(), re.M), found.offsets))


def main():
    names = {place: name for name, place in places(*sys.argv[1:3]).items()}
    others = places(*sys.argv[3:5])
    for line in sys.stdin:
        word, *rest = line.split() or [""]
        if word in ("write", "read"):
            place = int(rest[0], 0) - MEMORY
            line = " ".join([word, hex(MEMORY + others[names[place // PAGE * PAGE]] + place % PAGE), *rest[1:]]) + "\n"
        print(line, end="")


if __name__ == "__main__":
    main()
