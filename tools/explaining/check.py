#!/usr/bin/env python3
"""Plants the mistakes of mistakes.py into texts without certificates, and looks whether `explain` and `certify` report
each: by its line, as `FILE:LINE: ..` on standard error, with the words that are wanted there. Nothing else may be reported.

  tools/explaining/check.py BINARY      BINARY is the built program for makers, crates/microsys_tool/out/microsys_tool
"""
import os
import re
import subprocess
import sys
import tempfile

sys.dont_write_bytecode = True
from mistakes import ALL  # noqa: E402
from texts import TEXTS  # noqa: E402


def planted(name, lines):
    """The text of a name with some of its lines put otherwise."""
    text = TEXTS[name].splitlines()
    for number, line in lines.items():
        text[number - 1] = line
    return "\n".join(text) + "\n"


def blocks_of(told, file):
    """What is reported, by lines: each begins with its place, and goes on with lines that are indented."""
    blocks = {}
    number = None
    for line in told.splitlines():
        if line.startswith(".. "):
            continue  # how far a request is that takes more than a second
        found = re.match(re.escape(file) + r":(\d+): ", line)
        if found:
            number = int(found.group(1))
        elif not line.startswith("  "):
            number = None
        blocks.setdefault(number, []).append(line)
    return {number: "\n".join(lines) for number, lines in blocks.items()}


def missed(told, file, wanted):
    """What is not reported as it is wanted, in words."""
    blocks = blocks_of(told, file)
    for number, words in wanted.items():
        if number not in blocks:
            return f"line {number} is not told"
        for word in words:
            if word not in blocks[number]:
                return f"line {number}: no {word!r}"
    others = [number for number in blocks if number not in wanted]
    return f"told as well: {others}" if others else None


def answers(binary, room, text):
    """What `explain` and `certify` put on standard error, with their statuses."""
    file = os.path.join(room, "text")
    with open(file, "w", encoding="utf-8") as written:
        written.write(text)
    for words in (["explain", file], ["certify", file, os.path.join(room, "out")]):
        done = subprocess.run([binary, *words], capture_output=True, text=True, timeout=60)
        yield words[0], file, done


def main(binary):
    """Reports what is missed, and how many are reported."""
    right = 0
    with tempfile.TemporaryDirectory() as room:
        for name, text in TEXTS.items():
            for command, _, done in answers(binary, room, text):
                if done.returncode != 0:
                    print(f"{command} {name}: refused\n{done.stderr}")
        for name, lines, wanted in ALL:
            faults = []
            for command, file, done in answers(binary, room, planted(name, lines)):
                fault = missed(done.stderr, file, wanted)
                if done.returncode != 1:
                    fault = f"status {done.returncode}"
                if fault:
                    faults.append(f"{command} {name} {lines}: {fault}\n{done.stderr}{done.stdout}")
            right += not faults
            print("".join(faults), end="")
    print(f"{right} of {len(ALL)} mistakes are told")
    return 0 if right == len(ALL) else 1


if __name__ == "__main__":
    if len(sys.argv) != 2:
        sys.exit(__doc__)
    sys.exit(main(sys.argv[1]))
