#!/usr/bin/env python3
"""Whether each change that an event of an accepted system makes is one that the manual lets it make.

  tools/integrity/check.py write FOLDER   writes the systems: images, and in a folder `cases` events and the words to record each
  tools/integrity/check.py judge RECORDS  judges their records, with planted changes; prints what was counted

`tools/integrity/run.sh` does both, and makes the records in between.
"""

import collections
import pathlib
import random
import sys

sys.dont_write_bytecode = True
import seen  # noqa: E402
from account import Account  # noqa: E402
from bounds import check_bounds, check_event  # noqa: E402
from calls import image_slots  # noqa: E402
from plants import PLANTS, Scene  # noqa: E402
from reckon import verdict  # noqa: E402
from rules import read, well_formed  # noqa: E402
from seen import View, Wrong, blocks, read_changes, said_changes  # noqa: E402
from systems import events, random_system  # noqa: E402

SAMPLES = pathlib.Path(seen.HERE, "..", "..", "samples")
# samples with as many events, and systems at random by their seeds
OF_SAMPLES = {"bell": 200, "solo": 100, "worker": 1000, "client_server": 500, "promise": 300, "buffers": 1000}
AT_RANDOM = [(kind, it, 1000) for kind, count in (("whole", 2), ("makers", 7), ("talkers", 7), ("devices", 3)) for it in range(count)]
LEAST = 20
# what has to be there at least so often: the system calls, the invocations that accepted programs may make, how they are made, events,
# instructions, and what comes of calls
KINDS = """Call|ReplyRecv|Send|NBSend|Recv|Reply|Yield|NBRecv|PutChar|Retype endpoint|Retype notification|Retype frame|Copy endpoint
Copy notification|Copy frame|Mint endpoint|Mint notification|Mint frame|Move endpoint|Move notification|Move frame|Delete|Revoke|Map|Unmap|Ack
invoked by Call|invoked by Send|invoked by NBSend|tick|tick that ends a slice|irq|load|store|branch|jal|alu|upper|message to who waits
message from who waits|message as an answer|words in buffers, to who waits|words in buffers, from who waits|words in buffers, as an answer
message cut to 8 words|message cut to 120 words|waits to send|waits to receive|waits for a signal|word taken|nobody to send to
nobody to answer|nothing to receive|signal wakes|signal is kept|interrupt wakes|interrupt is kept|line held back
line without a notification|Ack of a line that was held back|endpoint ends|notification ends|frame ends|slots emptied
child of what moves|write|read|load from a device page|store to a device page""".replace("\n", "|").split("|")


class Counts:
    """What was judged."""

    def __init__(self):
        self.events, self.changes, self.kinds = collections.Counter(), collections.Counter(), collections.Counter()
        self.planted, self.beyond = collections.Counter(), collections.Counter()


def systems():
    """Names of systems, with their images and events."""
    for name, count in OF_SAMPLES.items():
        image = (SAMPLES / f"{name}.img").read_bytes()
        yield name, image, events(random.Random(name), count, [3, 3, 9])
    for kind, seed, count in AT_RANDOM:
        yield f"{kind}{seed}", *random_system(kind, seed, count)


def write(folder):
    folder = pathlib.Path(folder)
    (folder / "cases").mkdir(parents=True, exist_ok=True)
    for name, image, listed in systems():
        assert verdict(image) == "accepted", name
        (folder / f"{name}.img").write_bytes(image)
        (folder / "cases" / name).write_text(listed, encoding="ascii")
        (folder / "cases" / f"{name}.args").write_text(f"{name}.img\n", encoding="ascii")


def check_start(image, view, account):
    """Refuses a machine that is not as the image says."""
    wanted = {}
    for t, thread in zip(image.threads, account.threads.values()):
        registers = dict(t.registers) | {0: t.base + 4 * t.entry}
        wanted |= {("reg", thread.tcb, number): registers.get(number, 0) for number in range(32)}
        for at, byte in enumerate(b"".join(word.to_bytes(4, "little") for word in t.words)):
            wanted["byte", view.place_of(thread.root, t.base + at, seen.EXECUTE)] = byte
        held = {(image.offsets[node], index): held for (node, index), (held, _) in image_slots(image, t).items()}
        for slot in [(image.offsets[node], index) for node in t.reached for index in range(2 ** image.objects[node][2])]:
            if view.held(slot) != held.get(slot):
                raise Wrong(f"slot {slot} holds {view.held(slot)}")
    for line, notification, badge in image.interrupts:
        if view.held((account.lines, line))[1::2] != (image.offsets[notification], badge):
            raise Wrong(f"line {line} is bound elsewhere")
    for key, value in wanted.items():
        if view.now(key) != value:
            raise Wrong(f"{key} is {view.now(key)} at the start, and not {value}")


def is_refused(check, view, deed, *record):
    try:
        check(view, deed, *record)
    except Wrong:
        return True
    return False


def put_plants(counts, tried, scene):
    """Plants each change for which there is place, once in each kind of event, and sees to it that it is refused."""
    view, deed = scene.view, scene.deed
    for name, (outside, altered) in PLANTS.items():
        record = altered(scene) if (name, deed.kinds[0]) not in tried else None
        if not record:
            continue
        planted_label, planted = record
        lines = list(said_changes(planted))
        if not is_refused(lambda *it: check_event(*it[:-1], read_changes(it[-1])), view, deed, planted_label, lines):
            raise Wrong(f"not refused: {name}")
        beyond = is_refused(check_bounds, view, deed, planted)
        if outside and not beyond:
            raise Wrong(f"within the bounds: {name}")
        tried.add((name, deed.kinds[0]))
        counts.planted[name] += 1
        counts.beyond[name] += beyond


def judge(data, listed, record, counts):
    """Judges the record of a system's run."""
    image = read(data)
    well_formed(image)
    account, tried = Account(image), set()
    if not record:
        raise Wrong("no record")
    first, *lines = record
    view = View(int(first.split()[1]), account.threads)
    (_, start), *following = blocks(lines)
    view.take(read_changes(start))
    check_start(image, view, account)
    if len(following) != len(listed):
        raise Wrong(f"{len(following)} events, and not {len(listed)}")
    for number, (event, (label, said)) in enumerate(zip(listed, following)):
        try:
            changes, before = read_changes(said), account.copy()
            deed = account.follow(view, event)
            check_event(view, deed, label, changes)
            put_plants(counts, tried, Scene(account, before, event, deed, label, changes))
        except Wrong as wrong:
            raise Wrong(f"event {number}, {label}: {wrong}") from None
        view.take(changes)
        counts.kinds.update(deed.kinds)
        counts.changes.update(key[0] for key in changes)


def records_in(lines):
    """The records by the names of their systems."""
    found, name = {}, None
    for line in lines:
        if line.startswith("== "):
            name = line[3:].split()[0]
            found[name] = []
        elif name and line.split(" ", 1)[0] in (">", "memory", "reg", "slot", "bytes", "places"):
            found[name].append(line)
    return found


def report(counts):
    """Prints what was counted; whether each kind and each plant was there often enough."""
    print(f"{sum(counts.events.values())} events of {len(counts.events)} systems, {sum(counts.changes.values())} changes: " +
        ", ".join(f"{count} of {kind}" for kind, count in sorted(counts.changes.items())))
    print("of kinds: " + ", ".join(f"{kind} {count}" for kind, count in sorted(counts.kinds.items())))
    print(f"planted and refused: {sum(counts.planted.values())} of {len(counts.planted)} kinds, {sum(counts.beyond.values())} by the bounds alone")
    rare = [f"{kind} {counts.kinds[kind]}" for kind in KINDS if counts.kinds[kind] < LEAST]
    rare += [f"{name} {counts.planted[name]}" for name in PLANTS if counts.planted[name] < 1]
    print("too rare: " + ", ".join(rare) if rare else f"each kind at least {LEAST} times")
    return 1 if rare else 0


def main():
    task, name = sys.argv[1:]
    if task == "write":
        return write(name)
    with open(name, encoding="ascii") as file:
        records = records_in(file.read().splitlines())
    counts = Counts()
    for name, data, listed in systems():
        counts.events[name] = len(listed.splitlines())
        try:
            judge(data, listed.splitlines(), records.get(name, []), counts)
        except Wrong as wrong:
            print(f"{name}: {wrong}")
            return 1
        print(f"{name}: {counts.events[name]} events, nothing outside")
    return report(counts)


if __name__ == "__main__":
    sys.exit(main())
