#!/usr/bin/env python3
"""Small systems whose longest runs are known, by searches over lists of events that keep the rates: what `response` says of each, and how long
they run over the lists that end the searches.

  tools/response/rows.py TOOL MICROSYS

What is said once a level has rested is the number that was worked from the budgets, and the longest run of the list of events that ended a
search is no longer.
"""

import os
import re
import subprocess
import sys
import tempfile

HERE = os.path.dirname(os.path.realpath(__file__))
sys.dont_write_bytecode = True
sys.path.insert(0, HERE)
from systems import MEMORY, Parts, longest_runs  # noqa: E402

# The name, the rates, and of a level its priority, its number once rested, worked from the budgets, and the longest run of its list; None where nothing
# is worked or listed, and "no bound" where there is none.
ROWS = [
    ("equal", ["1 1 20", "2 1 20"], 100, 16, 16),
    ("chain", ["1 1 100"], 110, 25, 25),
    ("server", ["1 1 200"], 100, 34, 28),
    ("passing", ["1 1 300"], 110, 280, 40),
    ("passing", ["1 1 300"], 100, None, None),
    ("below", ["1 1 20"], 100, 16, 16),
    ("word", ["1 1 200"], 100, None, 43),
    ("pending", ["1 1 120", "5 1 240"], 100, 88, 87),
    # Its client may wait for an answer for ever, but not to send: at rest a word and the line are 22 each, 9 the client, and 22 come.
    ("deaf", ["1 1 200"], 100, 75, 12),
    ("self", [], 100, "no bound", None),
    ("many", ["1 1 200"], 110, "no bound", None),
    # Of samples/gallery: its office calls with a badge that its filter answers, which takes sends with another too.
    ("gateway", ["1 1 1000", "2 1 1000"], 90, 94, None),
]
GALLERY = os.path.join(HERE, "..", "..", "samples", "gallery")
LEVEL = re.compile(r"priority (\d+) and above: (?:at most (\d+) instructions on end|no bound)")
LATER = re.compile(r"rests again within (\d+) instructions|once rested: at most (\d+) instructions")


def text_of(name):
    """The text of a system: of a row, or of the gallery."""
    own = f"{HERE}/rows/{name}.txt"
    return own if os.path.exists(own) else f"{GALLERY}/{name}.txt"


def levels_of(said):
    """Of each priority the numbers from the start on and once rested, where there are some."""
    found, priority = {}, None
    for line in said.splitlines():
        level, later = LEVEL.match(line), LATER.search(line)
        if level:
            priority = int(level[1])
            found[priority] = [int(level[2]) if level[2] else None, None]
        elif later:
            found[priority][1] = int(later[1] or later[2])
    return found


def run_of(programs, folder, name, priority):
    """The longest run of a level over its list of events."""
    tool, microsys = programs
    image, events = os.path.join(folder, "it.img"), f"{HERE}/rows/{name}_{priority}.events"
    subprocess.run([tool, "make", text_of(name), image], stdout=subprocess.DEVNULL, check=True)
    ran = subprocess.run([microsys, "run", image, events], stdout=subprocess.PIPE, text=True, check=True)
    with open(image, "rb") as file:
        read = Parts(file.read()).image
    priorities = {MEMORY + read.offsets[thread.tcb]: thread.priority for thread in read.threads}
    return longest_runs(ran.stdout.splitlines(), priorities)[priority]


def checked(programs, folder, row):
    """What is wrong with a row, or nothing."""
    name, rates, priority, wanted, reached = row
    words = [word for rate in rates for word in rate.split()]
    said = subprocess.run([programs[0], "response", text_of(name), *words], stdout=subprocess.PIPE, text=True, check=True).stdout
    steps, later = levels_of(said)[priority]
    if wanted == "no bound":
        return "" if steps is None else f"at most {steps} are said, and there is no bound"
    if wanted is not None and later != wanted:
        return f"{later} once rested, and not {wanted}"
    if reached is None:
        return ""
    run = run_of(programs, folder, name, priority)
    if run != reached:
        return f"a run of {run}, and not of {reached}"
    return "" if run <= min(steps, later) else f"a run of {run}, and at most {steps} and {later} are said"


def main(tool, microsys):
    wrong = 0
    for row in ROWS:
        with tempfile.TemporaryDirectory() as folder:
            fault = checked((tool, microsys), folder, row)
        if fault:
            wrong += 1
            print(f"{row[0]}, priority {row[2]}: {fault}")
    print(f"response: {len(ROWS)} rows, {wrong} otherwise")
    return 1 if wrong else 0


if __name__ == "__main__":
    if len(sys.argv) != 3:
        sys.exit(__doc__)
    sys.exit(main(*sys.argv[1:]))
