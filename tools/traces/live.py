#!/usr/bin/env python3
"""Runs a system over events that come a line at a time, as `microsys run IMG -` does, reckoned apart from the product.

  tools/traces/live.py run SYSTEM - [--plain]

SYSTEM is an image, or a text whose device pages and interrupts have names. It ends as the product does: status 1 after `refused ..`
or `events line N`.
"""

import os
import re
import sys

HERE = os.path.dirname(os.path.realpath(__file__))
sys.path[:0] = [f"{HERE}/../damage", HERE]
sys.dont_write_bytecode = True
from machine import MEMORY, Machine  # noqa: E402
from rules import is_device  # noqa: E402
from texts import assembled, number  # noqa: E402

sys.path.remove(HERE)
from reckon import verdict  # noqa: E402

MOST_STEPS = 1_000_000


class Live:
    """A run, and what names its device pages and interrupts have."""

    def __init__(self, data, text):
        self.machine = Machine(data)
        image = self.machine.image
        self.pages = {MEMORY + place for at, place in enumerate(image.offsets) if is_device(image, at)}
        objects = re.findall(r"^object (\S+)", text, re.M)
        self.places = {name: MEMORY + place for name, place in zip(objects, image.offsets)}
        # a line by its name, or by that of the bell that no other rings
        lines = re.findall(r"^irq (\S+) (\d+) (\S+)", text, re.M)
        rung = [bell for _, _, bell in lines]
        self.interrupts = {name: int(line) for given, line, bell in lines for name in ([given, bell] if rung.count(bell) == 1 else [given])}

    def place(self, words):
        """The address of a word of a device page: an address, or a name and the number of the word."""
        at = number(words[0]) if len(words) == 1 else self.places[words[0]] + 4 * number(words[1])
        if at % 4 or at & ~4095 not in self.pages:
            raise ValueError
        return at

    def steps(self, count, settles):
        for _ in range(count):
            line = self.machine.step()
            yield line
            if settles and line == "idle":
                return

    def answered(self, word, *rest):
        """The lines of an event."""
        if word in ("step", "settle"):
            count = int(*rest) if rest or word == "settle" else 1
            if not 1 <= count <= MOST_STEPS:
                raise ValueError
            yield from self.steps(count, word == "settle")
        elif word == "write":
            *place, new = rest
            yield self.machine.write(self.place(place), number(new))
        elif word == "read":
            yield self.machine.show(self.place(rest))
        elif word == "irq":
            yield self.machine.interrupt(self.interrupts[rest[0]] if rest[0] in self.interrupts else int(rest[0]))
        elif [word, *rest] == ["tick"]:
            yield self.machine.tick()
        else:
            raise ValueError


def main():
    with open(sys.argv[2], "rb") as file:
        said = file.read()
    text = "" if said[:4] == b"MSYS" else said.decode()
    data = assembled(text) if text else said
    if verdict(data) != "accepted":
        print(verdict(data))
        return 1
    live = Live(data, text)
    for at, line in enumerate(sys.stdin, 1):
        try:
            for answer in live.answered(*line.split()) if line.strip() and line[0] != "#" else []:
                print(answer)
        except (ValueError, KeyError, TypeError):
            print(f"events line {at}")
            return 1
        sys.stdout.flush()
    return 0


if __name__ == "__main__":
    sys.exit(main())
