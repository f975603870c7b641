#!/usr/bin/env python3
"""Prints the table of docs/PROVED.md: for each storey and crate of crates.txt what the crate is (the first sentence of
its root file) and its public calls with the names of their `ensures`, first the functions that the root file exports.

A call is a function, a method or a trait's method that the crate exports and that has an `ensures`. What has no name
is printed where it is short. † follows a call that has a `requires`. A type also lists the traits of this repository
that it meets, whose clauses its methods have.

    tools/checks/proved_table.py            prints the table
    tools/checks/proved_table.py --check    fails where docs/PROVED.md has another one
    tools/checks/proved_table.py --write    puts it there
"""

import re
import sys
from pathlib import Path

ROOT = Path(__file__).resolve().parents[2]
PAGE = ROOT / "docs/PROVED.md"
BEGIN, END = "<!-- made by tools/checks/proved_table.py --write -->\n", "<!-- end of what is made -->\n"
MOST_CALLS, SHORT = 12, 45
BLOCK = re.compile(r"(?:pub )?(trait|impl)(?:<.*?>)? (?:(\w+)(?:<.*>)? for )?(\w+)")
CALL = re.compile(r" *(pub )?(?:const )?fn (\w+)")
CLAUSE = re.compile(r" +(ensures|requires) (\w*) ?\{ ?(.*)")


def lines_of(file):
    """The lines of a source file but for comments."""
    return [it for it in file.read_text(encoding="utf-8").splitlines() if not it.lstrip().startswith("//")]


def clauses_from(lines):
    """The clauses (word, name, text) of the function that begins with the first line, up to its body."""
    found, depth = [], 0
    for line in lines:
        clause = CLAUSE.match(line) if depth == 0 else None
        is_clause = bool(clause or depth > 0)
        if clause:
            found.append([clause[1], clause[2], ""])
        if is_clause:
            found[-1][2] += " " + (clause[3] if clause else line.strip())
            depth += line.count("{") - line.count("}")
        if depth == 0 and (line.endswith(";") or not is_clause and re.search(r"(^ *| )\{(.*\})?$", line)):
            break
    return [(word, name, re.sub(r" *\};?$", "", text).strip()) for word, name, text in found]


def declared_in(file):
    """The calls (owner, name, clauses) of a file, public as far as this file says, and which type meets which trait."""
    calls, met, owner, is_trait = [], [], "", False
    lines = lines_of(file)
    for number, line in enumerate(lines):
        block, call = BLOCK.match(line), CALL.match(line)
        if block:
            owner, is_trait = block[3], block[1] == "trait"
            met += [(owner, block[2])] if block[2] else []
        elif line == "}":
            owner, is_trait = "", False
        elif call and (call[1] or is_trait):
            calls.append((owner, call[2], clauses_from(lines[number:])))
    return calls, met


def exports_of(file, folder, wanted=None, depth=0):
    """What a module exports, as (depth, file, name): of a private one what is wanted, of a public one its own too."""
    text, found = "\n".join(lines_of(file)), []
    for path, names in re.findall(r"^pub use ((?:\w+::)+)(\w+|\{[^}]*\});", text, re.M):
        module = Path(folder, *path.removeprefix("crate::").split("::")[:-1])
        source = module.with_suffix(".rt")
        for name in re.findall(r"\w+", names) if source.exists() else []:
            if wanted in (None, name):
                found += exports_of(source, module, name, depth) or [(depth, source, name)]
    if wanted is None:
        found += [(depth, file, name) for owner, name, _ in declared_in(file)[0] if not owner]
        for name in re.findall(r"^pub mod (\w+);", text, re.M):
            found += exports_of(Path(folder, name + ".rt"), Path(folder, name), None, depth + 1)
    return found


def described(name, clauses):
    """A call as its row has it, or nothing if no clause says what it gives."""
    ensured = [(label, text) for word, label, text in clauses if word == "ensures"]
    if not ensured:
        return ""
    labels = [label for label, _ in ensured if label]
    if not labels and len(ensured[0][1]) <= SHORT:
        labels = [f"`{ensured[0][1]}`"]
    elif not labels:
        labels = ["one equation" if re.match(r"result(\.\w+)* ≡ ", ensured[0][1]) else "one clause"]
    return f"`{name}`{'†' if len(ensured) < len(clauses) else ''} ({', '.join(labels)})"


def calls_of(source, traits):
    """The public calls (depth of the module, text) of a crate, functions first, with the traits that its types meet."""
    declared = {file: declared_in(file) for file in sorted(source.rglob("*.rt"))}
    found = []
    for depth, file, name in exports_of(root_of(source), source):
        functions = [it for it in declared[file][0] if it[:2] == ("", name)]
        found += [(depth, 0, described(name, clauses)) for _, _, clauses in functions]
        for other in sorted(declared, key=lambda it: it != file):
            methods = [(f"{name}::{call}", clauses) for owner, call, clauses in declared[other][0] if owner == name]
            found += [(depth, 1, described(*it)) for it in methods]
        met = {trait for _, pairs in declared.values() for owner, trait in pairs if owner == name} & traits
        if met:
            found.append((depth, 1, f"`{name}` meets " + ", ".join(f"`{it}`" for it in sorted(met))))
    return [(depth, call) for depth, _, call in sorted(found, key=lambda it: it[:2]) if call]


def weight_of(entry):
    """What a full row keeps first: functions, methods with named clauses, others, laws; of public modules last."""
    depth, call = entry
    is_method, is_long, is_look = "::" in call, call.endswith("(one clause)"), re.search(r"one equation|`result", call)
    return depth, (2 if is_long else 3 if is_look else 1) if is_method else 4 * is_long


def root_of(source):
    """The root file of a crate."""
    return source / ("lib.rt" if (source / "lib.rt").exists() else "main.rt")


def promise_of(source):
    """The first sentence of a crate's root file."""
    text = " ".join(re.findall(r"^//! ?(.*)", root_of(source).read_text(encoding="utf-8"), re.M))
    return re.sub(r"\[(`\w+`)\]", r"\1", re.match(r".*?\.(?= |$)", text)[0])


def row_of(name, traits):
    """The row of a crate."""
    source = ROOT / "crates" / name / "src"
    calls = calls_of(source, traits)
    kept = [call for _, call in sorted(sorted(calls, key=weight_of)[:MOST_CALLS], key=calls.index)]
    more = [f"and {len(calls) - MOST_CALLS} more"] if len(calls) > MOST_CALLS else []
    cells = [f"`{name}`", promise_of(source), "; ".join(kept + more) or "no clause"]
    return "| " + " | ".join(cell.replace("|", "\\|") for cell in cells) + " |"


def table():
    """The rows of all crates, by storey."""
    texts = [file.read_text(encoding="utf-8") for file in sorted((ROOT / "crates").glob("*/src/**/*.rt"))]
    traits = {name for text in texts for name in re.findall(r"^pub trait (\w+)", text, re.M)}
    rows = ["| crate | what it is | public calls (their clauses) |", "|---|---|---|"]
    for line in (ROOT / "crates.txt").read_text(encoding="utf-8").splitlines():
        storey, crate = re.fullmatch(r"# (\w+)", line), re.match(r"(\w+):", line)
        if storey or crate:
            rows.append(f"| **{storey[1]}** | | |" if storey else row_of(crate[1], traits))
    return "\n".join(rows) + "\n"


def main():
    made = table()
    if len(sys.argv) == 1:
        print(made, end="")
        return
    page = PAGE.read_text(encoding="utf-8")
    before, _, rest = page.partition(BEGIN)
    held, _, after = rest.partition(END)
    if sys.argv[1] == "--write":
        PAGE.write_text(before + BEGIN + made + END + after, encoding="utf-8")
    elif held != made:
        sys.exit("docs/PROVED.md: the table is not that of the clauses: tools/checks/proved_table.py --write")


if __name__ == "__main__":
    main()
