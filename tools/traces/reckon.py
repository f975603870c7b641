#!/usr/bin/env python3
"""Reckons images from their texts, and traces from images and events, apart from the product.

  tools/traces/reckon.py NAME ..         writes NAME.img and NAME.trace beside NAME.txt and NAME.events
  tools/traces/reckon.py compare NAME .. reckons them, and names those that are other than the files

NAME is a path without its ending.
"""

import sys

sys.dont_write_bytecode = True
from machine import Machine, trace  # noqa: E402
from texts import assembled  # noqa: E402


def reckoned(name):
    """The image's bytes, and the trace's."""
    with open(f"{name}.txt", encoding="ascii") as text, open(f"{name}.events", encoding="ascii") as events:
        image = assembled(text.read())
        return {"img": image, "trace": "".join(f"{line}\n" for line in trace(Machine(image), events.read())).encode()}


def main():
    names, other = sys.argv[1:], 0
    compares = names[:1] == ["compare"]
    for name in names[1:] if compares else names:
        for ending, wanted in reckoned(name).items():
            if not compares:
                with open(f"{name}.{ending}", "wb") as file:
                    file.write(wanted)
                continue
            with open(f"{name}.{ending}", "rb") as file:
                if file.read() != wanted:
                    print(f"{name}.{ending}: other than reckoned")
                    other = 1
    return other


if __name__ == "__main__":
    sys.exit(main())
