#!/usr/bin/env python3
"""Reports on systems, as pages and as data: `microsys_tool report` of each sample, of the gallery and of a system with 64 parts, of
systems that are refused, and of one with names that would be signs of a page.

  tools/report/pages.py TOOL [NAME ..]
  tools/report/pages.py crowd FILE         writes the system with 64 parts

Of each page: tags are balanced, no two ids are the same, each link in it leads somewhere, nothing is fetched and no script is there, and no
two boxes of the picture overlap. Of the data: the digits are those of hashlib over the image, and numbers are those of `list`, `parts`,
`make` and `response`; what tests showed is what is counted here in the lines of `run`, and by `cover`."""

import hashlib
import html
import json
import os
import re
import subprocess
import sys
import tempfile
from html.parser import HTMLParser
from pathlib import Path

ROOT = Path(__file__).resolve().parents[2]
TOOL = ""
VOID = {"meta", "br", "img", "link", "hr", "input"}
# A system that is refused, and names of files that would be signs.
REFUSED = "samples/hostile/circle.txt"
# What makes the page that is stored.
STORED = ["report", "samples/report.sys", "samples/report.html", "samples/report.events", "--rate", "3:1:1000"]
NAMES = ["<script>alert(1)&lt;'\".img", "<b onclick=x>&.events"]


class Page(HTMLParser):
    """A page as it is read."""

    def __init__(self) -> None:
        super().__init__(convert_charrefs=True)
        self.open: list[str] = []
        self.ids: list[str] = []
        self.links: list[str] = []
        self.wrong: list[str] = []
        self.text: list[str] = []
        self.boxes: list[tuple[int, int, int, int]] = []
        self.tags: set[str] = set()

    def take(self, tag: str, attributes: list[tuple[str, str | None]]) -> None:
        """What a tag says."""
        said = dict(attributes)
        self.tags.add(tag)
        if "id" in said:
            self.ids.append(said["id"] or "")
        for name in ("href", "src", "srcset", "data", "action", "xlink:href"):
            if name in said:
                self.links.append(said[name] or "")
        if any(name.startswith("on") for name in said):
            self.wrong.append(f"{tag}: {said}")
        if tag == "rect":
            self.boxes.append(tuple(int(said[it] or 0) for it in ("x", "y", "width", "height")))  # type: ignore[arg-type]

    def handle_starttag(self, tag: str, attrs: list[tuple[str, str | None]]) -> None:
        self.take(tag, attrs)
        if tag not in VOID:
            self.open.append(tag)

    def handle_startendtag(self, tag: str, attrs: list[tuple[str, str | None]]) -> None:
        self.take(tag, attrs)

    def handle_endtag(self, tag: str) -> None:
        if not self.open or self.open.pop() != tag:
            self.wrong.append(f"</{tag}>")

    def handle_data(self, data: str) -> None:
        if not self.open or self.open[-1] != "style":
            self.text.append(data)


def overlapping(boxes: list[tuple[int, int, int, int]]) -> list[str]:
    """Two boxes that share a point, if there are some."""
    placed = sorted(boxes)
    for number, (left, top, width, height) in enumerate(placed):
        for other in placed[number + 1 :]:
            if other[0] >= left + width:
                break
            if other[1] < top + height and top < other[1] + other[3]:
                return [f"boxes {(left, top, width, height)} and {other}"]
    return []


def wrong_in(page: str) -> tuple[list[str], str]:
    """What is wrong with a page, and its text."""
    read = Page()
    read.feed(page)
    read.close()
    wrong = list(read.wrong)
    wrong += [f"not closed: {it}" for it in read.open]
    wrong += sorted({f"id {it} twice" for it in read.ids if read.ids.count(it) > 1})
    wrong += [f"no place {it}" for it in read.links if it.startswith("#") and it[1:] not in read.ids]
    wrong += [f"leads elsewhere: {it}" for it in read.links if not it.startswith(("#", "docs/PROVED.md#"))]
    wrong += [f"is there: {it}" for it in sorted(read.tags & {"script", "link", "iframe", "object", "embed", "img"})]
    if re.search(r"url\(|@import", page):
        wrong.append("fetches something")
    if re.search(r"https?://", page.replace("http://www.w3.org/2000/svg", "")):
        wrong.append("names an address elsewhere")
    return wrong + overlapping(read.boxes), " ".join(read.text)


def links_into_proved(page: str) -> list[str]:
    """Links into the page on what is proved that lead to no section of it."""
    text = (ROOT / "docs/PROVED.md").read_text("utf-8")
    sections = {re.sub(r"[^a-z0-9 -]", "", it.lower()).replace(" ", "-") for it in re.findall(r"^#+ (.*)$", text, re.M)}
    return [f"PROVED has no {it}" for it in re.findall(r'href="docs/PROVED\.md#([^"]*)"', page) if it not in sections]


def unexplained(data: object) -> set[str]:
    """Members of the data that the guide's table does not name."""
    text = (ROOT / "docs/GUIDE.md").read_text("utf-8").partition("## A page for who signs")[2].partition("\n## ")[0]
    named = set(re.findall(r"[a-z_0-9]+", " ".join(re.findall(r"`([^`]*)`", text))))

    def members(value: object) -> set[str]:
        if isinstance(value, dict):
            return set(value) | {name for member in value.values() for name in members(member)}
        return {name for member in value for name in members(member)} if isinstance(value, list) else set()

    return members(data) - named


def said(*words: str, status: int = 0) -> str:
    """What the program puts."""
    ran = subprocess.run([TOOL, *words], cwd=ROOT, capture_output=True, text=True, check=False)
    if ran.returncode != status:
        raise SystemExit(f"{' '.join(words)}: status {ran.returncode}\n{ran.stderr}")
    return ran.stdout


def image_of(system: str, room: Path) -> bytes:
    """The image of a system."""
    target = room / "image"
    if system.endswith(".img"):
        return (ROOT / system).read_bytes()
    text = (ROOT / system).read_text("utf-8") if not Path(system).is_absolute() else Path(system).read_text("utf-8")
    said("make" if system.endswith(".sys") or "measure" not in text else "build", system, str(target))
    return target.read_bytes()


def counted(report: dict, traces: list[list[str]], addresses: dict[str, str], bases: dict[str, int]) -> dict:
    """Of each part how many steps ran, the longest stretch, and how many of its instructions, by the lines of `run --plain`."""
    counts = {it["name"]: {"ran": 0, "longest": 0, "points": set()} for it in report["facts"]["declared"]["parts"]}
    for lines in traces:
        stretch = dict.fromkeys(counts, 0)
        for line in lines:
            words = line.split(" ", 2)
            name = addresses.get(words[0])
            if name is None or len(words) < 3:
                continue
            stretch[name] += 1
            its = counts[name]
            its["ran"] += 1
            its["points"].add((int(words[1], 16) - bases[name]) // 4)
            its["longest"] = max(its["longest"], stretch[name])
            if words[2] == "wait":
                stretch[name] = 0
    return counts


def wrong_with_bounds(system: str, responding: dict) -> list[str]:
    """Where bounds of a report are not those of `response` at the same rates."""
    if not responding["rates"]:
        return []
    words = [str(rate[it]) for rate in responding["rates"] for it in ("line", "burst", "period")]
    wanted: dict[int, tuple] = {}
    for line in said("response", system, *words).splitlines():
        if found := re.match(r"priority (\d+) and above: (?:at most (\d+) instructions|no bound)", line):
            level = int(found[1])
            wanted[level] = (int(found[2]) if found[2] else None, {})
        elif found := re.match(r"  line (\d+) \(.*\): \S+ rests again within (\d+) instructions", line):
            wanted[level][1][int(found[1])] = int(found[2])
    given: dict[int, tuple] = {}
    for row in responding["rows"]:
        bound = row["answer"].get("bound")
        lines = {it["line"]: bound["later"] for it in bound["lines"]} if bound else {}
        given[row["priority"]] = (max(bound["steps"], bound["later"]) if bound else None, lines)
    return [] if given == wanted else [f"bounds {given}, not {wanted}"]


def wrong_with_cover(system: str, events: list[str], parts: list[dict]) -> list[str]:
    """Where what tests showed is not what `cover` counts."""
    script = [str(ROOT / "tools/make_system/microsys_tool"), "cover", system, *events]
    ran = subprocess.run(script, cwd=ROOT, capture_output=True, text=True, check=True, env={**os.environ, "MICROSYS_TOOL": TOOL})
    counted = re.findall(r"^(\S+) (\d+) of (\d+) instructions, longest (\d+) of (\d+)$", ran.stdout, re.M)
    given = [(it["part"], *(str(it[name]) for name in ("covered", "instructions", "longest", "budget"))) for it in parts]
    return [] if given == counted else [f"cover {counted}, not {given}"]


def wrong_with_numbers(system: str, image: bytes, report: dict, page_text: str, events: list[str], room: Path) -> list[str]:
    """Where numbers of a report are not those of other words."""
    wrong = []
    facts, sizes = report["facts"], report["facts"]["sizes"]
    if report["subject"]["sha256"] != hashlib.sha256(image).hexdigest() or report["subject"]["sha256"] not in page_text:
        wrong.append("digits")
    file = room / "listed.img"
    file.write_bytes(image)
    listed = said("list", str(file))
    objects, threads, words = map(int, re.search(r"# objects: (\d+), threads: (\d+), words of programs: (\d+)", listed).groups())
    length, version = map(int, re.search(r"# the file: (\d+) bytes of version (\d+)", listed).groups())
    memory, slots = map(int, re.search(r"# (\d+) bytes of memory, (\d+) boot slots", listed).groups())
    if (sizes["objects"], sizes["parts"], sizes["instructions"]) != (objects, threads, words):
        wrong.append(f"sizes {sizes}")
    if (sizes["bytes"], sizes["version"], sizes["memory"], sizes["boot_slots"]) != (length, version, memory, slots):
        wrong.append(f"sizes {sizes}")
    free = [int(it) for it in re.findall(r"used, (\d+) free", listed)]
    if [it["free"] for it in facts["memory"]["untyped"]] != free:
        wrong.append("free memory")
    places = re.findall(r"^object \S+ .*# at (0x[0-9a-f]+), (\d+) bytes", listed, re.M)
    if [(it["address"], it["bytes"]) for it in facts["memory"]["objects"]] != [(int(at, 16), int(size)) for at, size in places]:
        wrong.append("places of objects")
    budgets = [int(it) for it in re.findall(r"^thread (?:\S+ ){5}(\d+) ", listed, re.M)]
    if [it["budget"] for it in facts["declared"]["parts"]] != budgets:
        wrong.append("budgets")
    parts = said("parts", system).splitlines()
    lines = len(facts["sharing"]["groups"])
    if facts["sharing"]["arrows"] != parts[: len(parts) - lines]:
        wrong.append("arrows")
    for group, line in zip(facts["sharing"]["groups"], parts[len(parts) - lines :]):
        if lines > 1 and (", ".join(group["parts"]) not in line or ("nothing from the others" in line) != group["takes_nothing"]):
            wrong.append(f"group {group}")
    if events:
        traces = [said("run", system, it, "--plain").splitlines() for it in events]
        threads_listed = re.findall(r"^thread (\S+) (?:\S+ ){7}(\S+)", listed, re.M)
        tcbs = dict(re.findall(r"^object (\S+) .*# at (0x[0-9a-f]+)", listed, re.M))
        names = [it["name"] for it in facts["declared"]["parts"]]
        addresses = {f"{int(tcbs[tcb], 16) & 0xFFFFFFFF:08x}": name for (tcb, _), name in zip(threads_listed, names)}
        bases = {name: int(base, 0) for (_, base), name in zip(threads_listed, names)}
        counts = counted(report, traces, addresses, bases)
        for it in facts["tests"]["parts"]:
            its = counts[it["part"]]
            if (it["ran"], it["longest"], it["covered"]) != (its["ran"], its["longest"], len(its["points"])):
                wrong.append(f"tests of {it['part']}: {it}, counted {its['ran']} {its['longest']} {len(its['points'])}")
            if it["longest"] > it["budget"]:
                wrong.append(f"{it['part']} passes its budget")
        for it in facts["tests"]["levels"]:
            if it["bound"] is not None and it["longest"] > it["bound"] and not facts["responding"]["rates"]:
                wrong.append(f"level {it}")
    wrong += wrong_with_bounds(system, facts["responding"])
    if events and system.endswith(".sys"):
        wrong += wrong_with_cover(system, events, facts["tests"]["parts"])
    for it in report["statements"]:
        if html.unescape(it["text"]) not in page_text:
            wrong.append(f"not on the page: {it['text']}")
    return wrong


def judge(system: str, events: list[str], room: Path, rates: tuple[str, ...] = ()) -> list[str]:
    """What is wrong with the report on an accepted system."""
    target = room / "page.html"
    options = [word for rate in rates for word in ("--rate", rate)]
    said("report", system, str(target), *events, *options)
    page = target.read_text("utf-8")
    report = json.loads(said("report", system, "-", *events, *options, "--json"))
    wrong, text = wrong_in(page)
    wrong += links_into_proved(page)
    if report["verdict"] != "accepted" or report["format"] != 1:
        wrong.append("verdict")
    wrong += [f"the guide does not name {it}" for it in sorted(unexplained(report))]
    return wrong + wrong_with_numbers(system, image_of(system, room), report, text, events, room)


def judge_refused(room: Path) -> list[str]:
    """What is wrong with the report on a refused system."""
    target = room / "refused.html"
    explained = subprocess.run([TOOL, "explain", REFUSED], cwd=ROOT, capture_output=True, text=True, check=False).stderr
    said("report", REFUSED, str(target), status=1)
    wrong, text = wrong_in(target.read_text("utf-8"))
    report = json.loads(said("report", REFUSED, "-", "--json", status=1))
    if report["verdict"] != "refused" or report["explanation"] != explained.splitlines():
        wrong.append("explanation")
    if "accepted" in text.lower().replace("not accepted", "") or any(line not in text for line in explained.splitlines()):
        wrong.append("text of the page")
    return wrong


def judge_names(room: Path) -> list[str]:
    """Names of files, and words of a refused text, that would be signs of a page are text."""
    system, events = room / NAMES[0], room / NAMES[1]
    system.write_bytes((ROOT / "samples/bell.img").read_bytes())
    events.write_bytes((ROOT / "samples/bell.events").read_bytes())
    target, refused, text = room / "names.html", room / "refused.html", room / "refused.txt"
    said("report", str(system), str(target), str(events))
    wrong, shown = wrong_in(target.read_text("utf-8"))
    wrong += [f"{it} is not text" for it in NAMES if it not in shown]
    report = json.loads(said("report", str(system), "-", str(events), "--json"))
    if report["subject"]["name"] != str(system) or report["facts"]["tests"]["files"][0]["file"] != str(events):
        wrong.append("names in the data")
    text.write_text("memory 16 4\nobject <script>alert(1)</script> u tcb\n", "utf-8")
    said("report", str(text), str(refused), status=1)
    also, shown = wrong_in(refused.read_text("utf-8"))
    return wrong + also + ([] if "<script>" in shown else ["the word is not text"])


def crowd() -> str:
    """A system with as many parts as there can be: 32 meters, each with a line, a device page, a page and a bell for a log of its own."""
    meter = ["again: addi x10 x0 clock{0}", "addi x17 x0 5", "ecall", "lui x6 probe{0}", "lw x5 0(x6)", "lui x6 readings{0}", "sw x5 0(x6)"]
    meter += ["addi x10 x0 news{0}", "addi x17 x0 3", "ecall", "addi x10 x0 clock{0}.line{0}", "lui x11 18", "addi x17 x0 1", "ecall", "jal x0 again"]
    log = ["again: addi x10 x0 news{0}", "addi x17 x0 5", "ecall", "lui x6 readings{0}", "lbu x10 0(x6)", "addi x17 x0 9", "ecall", "jal x0 again"]
    lines = []
    for number in range(32):
        lines += [it.format(number) for it in ("device probe{0}", "page readings{0}", "bell clock{0}", "bell news{0}")]
        holds = ["waits clock{0} line {0} every 2000 burst 1", "sees probe{0}", "rings news{0}", "writes readings{0}", "within 900"]
        for name, priority, held, code in (("meter", 100 + number, holds, meter), ("log", 60 + number, ["waits news{0}", "sees readings{0}"], log)):
            body = [f"part {name}{{0}} {priority}", *(f"  {it}" for it in held), "  code", *(f"  {it}" for it in code), "end"]
            lines += [it.format(number) for it in body]
    return "".join(f"{it}\n" for it in lines)


def judge_crowd(room: Path) -> list[str]:
    """What is wrong with the report on a system with 64 parts, each meter of which is to deal with its line."""
    system, events = room / "crowd.sys", room / "crowd.events"
    system.write_text(crowd(), "ascii")
    events.write_text("".join(f"irq {number}\n" + "step\n" * 200 for number in range(32)), "ascii")
    report = json.loads(said("report", str(system), "-", "--json"))
    kept = [it for it in report["statements"] if it["ground"] == {"clause": "kept"}]
    wrong = [] if len(kept) == 32 and len(report["facts"]["declared"]["parts"]) == 64 else [f"{len(kept)} are kept"]
    if [it["holds"] for it in report["facts"]["responding"]["within"]] != [True] * 32:
        wrong.append("within")
    other = room / "late.sys"
    other.write_text(crowd().replace("within 900", "within 5"), "ascii")
    late = json.loads(said("report", str(other), "-", "--json"))
    if [it["holds"] for it in late["facts"]["responding"]["within"]] != [False] * 32 or any(it["ground"] == {"clause": "kept"} for it in late["statements"]):
        wrong.append("within that does not hold")
    return wrong + judge(str(system), [str(events)], room)


def leaves(value: object, path: tuple = ()) -> set[tuple]:
    """The numbers, words and truths in data, by where they are; sentences and items of lists without their places."""
    if isinstance(value, dict):
        return {leaf for name, member in value.items() for leaf in leaves(member, (*path, name))}
    if isinstance(value, list):
        return {leaf for member in value for leaf in leaves(member, path)}
    return {(*path, str(value))}


def judge_changes(room: Path) -> list[str]:
    """What is wrong with `diff` of two reports: of one with itself, and of a system before and after a part has another priority and more to do."""
    before, after = room / "before.json", room / "after.json"
    system = (ROOT / "samples/report.sys").read_text("ascii")
    changed = system.replace("part meter 101", "part meter 107").replace("    addi x5 x5 1\n", "    addi x5 x5 1\n    addi x5 x5 0\n")
    for text, target in ((system, before), (changed, after)):
        (room / "it.sys").write_text(text, "ascii")
        said("report", str(room / "it.sys"), str(target), "--json", "--rate", "3:1:1000")
    wrong = [] if said("diff", str(before), str(before)) == "" else ["a report is not the same as itself"]
    lines = said("diff", str(before), str(after), status=1).splitlines()
    for wanted in (r"facts\.declared\.parts\[meter\]\.priority: 101 -> 107", r"facts\.declared\.parts\[meter\]\.instructions: 14 -> 15"):
        if not any(re.fullmatch(wanted, line) for line in lines):
            wrong.append(f"no line {wanted}")
    # each value that is new or gone is in a line, and no line is without one
    old, new = (json.loads(it.read_text("utf-8")) for it in (before, after))
    differing = {leaf[-1] for leaf in leaves(old) ^ leaves(new)}
    wrong += [f"not said: {value}" for value in differing if not any(value in line for line in lines)]
    wrong += [f"said in vain: {line}" for line in lines if not any(value in line for value in differing)]
    (room / "none.json").write_text("{\n\"format\": 1,\n]", "ascii")
    failed = subprocess.run([TOOL, "diff", str(before), str(room / "none.json")], capture_output=True, text=True, check=False)
    return wrong + ([] if failed.returncode == 1 and "none.json:3:" in failed.stdout + failed.stderr else [f"no JSON: {failed.stdout}{failed.stderr}"])


def judge_stored(room: Path) -> list[str]:
    """What is wrong with the page and the picture that are stored beside the sample."""
    samples = room / "samples"
    samples.mkdir()
    for name in ("report.sys", "report.events"):
        (samples / name).write_bytes((ROOT / "samples" / name).read_bytes())
    subprocess.run([TOOL, *STORED], cwd=room, check=True)
    drawn = said("draw", "samples/report.sys", "--svg")
    wrong = [] if (samples / "report.html").read_text("utf-8") == (ROOT / "samples/report.html").read_text("utf-8") else ["samples/report.html"]
    return wrong + ([] if drawn == (ROOT / "samples/report.svg").read_text("utf-8") else ["samples/report.svg"])


def fit(system: str, events: str) -> bool:
    """Whether a list of events is one for a system: addresses of device pages in the list of an image are others in a description's."""
    return subprocess.run([TOOL, "run", system, events], cwd=ROOT, capture_output=True, check=False).returncode == 0


def systems() -> list[tuple[str, list[str]]]:
    """Samples and gallery, with their events."""
    found = []
    for folder in ("samples", "samples/gallery"):
        for ending in ("*.img", "*.sys"):
            for it in sorted((ROOT / folder).glob(ending)):
                system, events = (str(one.relative_to(ROOT)) for one in (it, it.with_suffix(".events")))
                found.append((system, [events] if (ROOT / events).exists() and fit(system, events) else []))
    return found


def main(words: list[str]) -> int:
    """The command."""
    global TOOL  # noqa: PLW0603
    if words[0] == "crowd":
        Path(words[1]).write_text(crowd(), "ascii")
        return 0
    TOOL = str(Path(words[0]).absolute())
    names = words[1:]
    bad = 0
    with tempfile.TemporaryDirectory(prefix="microsys.") as room_name:
        room = Path(room_name)
        judged = [(system, lambda it=system, ev=events: judge(it, ev, room)) for system, events in systems()]
        judged.append(("samples/gallery/controller.img with rates", lambda: judge("samples/gallery/controller.img", ["samples/gallery/controller.events"], room, tuple(f"{it}:1:1000" for it in range(64)))))
        judged += [("a refused system", lambda: judge_refused(room)), ("names that are signs", lambda: judge_names(room))]
        judged += [("a system with 64 parts", lambda: judge_crowd(room)), ("two reports", lambda: judge_changes(room)), ("the stored page", lambda: judge_stored(room))]
        for name, judging in judged:
            if names and not any(it in name for it in names):
                continue
            wrong = judging()
            bad += bool(wrong)
            print(f"{name}: {'as expected' if not wrong else '; '.join(wrong[:5])}", flush=True)
    return 1 if bad else 0


if __name__ == "__main__":
    sys.exit(main(sys.argv[1:]))
