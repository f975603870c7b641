#!/usr/bin/env python3
"""What the gate asks of the texts of all crates before it proves anything: layout, names, links and edits. At the top of the repository.

Also that no crate imports another's proofs but through its one public module of them, `Laws` (those of `model` are on the definitions,
and for all), that none but `objects` sees which form its tables have, that no crate has more `requires` than premises.txt beside
this file allows (what a premise says belongs into a type), and that lines are as wide as may be at most.

  tools/checks/texts.py               checks all of this
  tools/checks/texts.py --premises    checks the number of `requires` and the width of lines alone, and needs no toolchain
  tools/checks/texts.py --write       writes the numbers of `requires` as they are into premises.txt
"""
import os
import re
import sys
from pathlib import Path

HERE = os.path.dirname(os.path.realpath(__file__))
sys.path.insert(0, HERE)
sys.dont_write_bytecode = True

IMPORT = re.compile(r"^(?:ghost )?(?:pub )?use Rattle\.(\w+)\.proofs\.(?!Laws\b)", re.M)
FORM = re.compile(r"\bTables::told_by\b|use Rattle\.objects\.specs\.(?:Rights\.|Tables\.(?!\{(?:Tables|state_of)(?:, (?:Tables|state_of))*\}))")


REQUIRES = re.compile(r"^\s*requires\b", re.M)
PREMISES = Path(HERE, "premises.txt")
# How many columns lines may have at most: of code, definitions and proofs, but for attributes, which `rt fmt` keeps on one line,
# and of documents, but for their tables and examples.
CODE_COLUMNS, TEXT_COLUMNS = 160, 120


def premises():
    """The number of `requires` in the code of each crate that has some."""
    counts = {}
    for folder in sorted(Path("crates").iterdir()):
        count = sum(len(REQUIRES.findall(file.read_text(encoding="utf-8"))) for file in folder.glob("src/**/*.rt"))
        if count:
            counts[folder.name] = count
    return counts


def premises_grown():
    """The crates with more `requires` than they may have; each is printed."""
    allowed = dict(line.split() for line in PREMISES.read_text(encoding="utf-8").splitlines())
    grown = [(name, count) for name, count in premises().items() if count > int(allowed.get(name, 0))]
    for name, count in grown:
        print(f"crates/{name}: {count} `requires`, and no more than {allowed.get(name, 0)} are allowed")
    return [name for name, _ in grown]


def write_premises():
    """Writes the numbers of `requires` as they are."""
    PREMISES.write_text("".join(f"{name} {count}\n" for name, count in premises().items()), encoding="utf-8")


def too_wide():
    """The files with lines that are wider than lines may be; each line is printed."""
    code = [(it, CODE_COLUMNS, ("#[", "    #[")) for form in ("src/**/*.rt", "specs/**/*.antt", "proofs/**/*.antt") for it in Path("crates").glob(f"*/{form}")]
    texts = [(it, TEXT_COLUMNS, ("|", "    ")) for top in (".", "docs", "samples", "tools") for it in Path(top).glob("*.md" if top == "." else "**/*.md")]
    found = []
    for file, columns, free in sorted(code + texts):
        for number, line in enumerate(file.read_text(encoding="utf-8").splitlines(), 1):
            if len(line) > columns and not line.startswith(free):
                print(f"{file}:{number}: {len(line)} columns, and no more than {columns} are allowed")
                found.append(str(file))
    return found


def proofs_seen(crates, RT):
    """The crates that import others' proofs past their modules of laws; each file is printed."""
    names, found = {it.name for it in crates} - {"model"}, []
    for crate in crates:
        for file in RT.rtlib.files_of(crate.folder):
            if file.endswith((".rt", ".antt")):
                with open(file, encoding="utf-8") as text:
                    if (names - {crate.name}).intersection(IMPORT.findall(text.read())):
                        print(f"{file}: imports another crate's proofs past its module of laws")
                        found.append(crate.name)
    return found


def forms_seen(crates, RT):
    """The crates that see what `told_by` hides, or a definition of the tables beside `Tables` and `state_of`; each file is printed."""
    found = []
    for crate in crates:
        for file in RT.rtlib.files_of(crate.folder) if crate.name != "objects" else []:
            if file.endswith((".rt", ".antt")):
                with open(file, encoding="utf-8") as text:
                    if FORM.search(text.read()):
                        print(f"{file}: sees which form the tables of objects have")
                        found.append(crate.name)
    return found


def refusals(crate, crates, RT):
    """How many of the gate's demands the crate's texts do not meet; each is printed."""
    found = 0
    try:
        RT.rtlib.stop_on_links(crate.folder)
        RT.rtlib.stop_on_unread(crate.folder, crates)
        RT.rtlib.stop_on_text(crate, "verdict")
        RT.stop_on_words(crate)
    except SystemExit:
        found += 1
    found += bool(RT.rtlib.fmt(crate.folder, "--check", sys.stdout))
    edits, others = RT.edits_of(crate)
    for edit in edits:
        why = RT.read_edit(edit, crate.folder)[1]
        if why:
            print(f"{edit}: {why}")
            found += 1
    return found + len(others)


def main(words):
    if words == ["--write"]:
        return write_premises()
    refused = premises_grown() + too_wide()
    if words != ["--premises"]:
        from libraries import RT  # finds the toolchain

        RT.rtlib.Crate = RT.Crate
        crates = RT.rtlib.crates_below(os.getcwd())
        refused += [it.name for it in crates if refusals(it, crates, RT)] + proofs_seen(crates, RT) + forms_seen(crates, RT)
    print("refused: " + " ".join(refused) if refused else "all texts are as the gate asks")
    return 1 if refused else 0


if __name__ == "__main__":
    sys.exit(main(sys.argv[1:]))
