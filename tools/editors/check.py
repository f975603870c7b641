#!/usr/bin/env python3
"""Compares what the editors' files make of each word of the samples with what the manual says that the word is.

    tools/editors/check.py

The grammar for Visual Studio Code is tried by its regular expressions, as that editor tries them; Vim is asked itself,
where it is there.
"""

from __future__ import annotations

import json
import re
import shutil
import subprocess
import sys
import tempfile
from collections.abc import Iterator
from pathlib import Path

HERE = Path(__file__).resolve().parent
ROOT = HERE.parents[1]
INSTRUCTIONS = set(
    "lui auipc jal jalr beq bne blt bge bltu bgeu lb lh lw lbu lhu sb sh sw addi slti sltiu xori ori andi slli srli srai "
    "add sub sll slt sltu xor srl sra or and fence ecall ebreak".split()
)
FORMS = {
    "text": {
        "Declaration": set("memory untyped object irq cap table map data promise thread end".split()),
        "Line": set("buffer reg program word".split()),
    },
    "system": {
        "Declaration": set("page device bell door promise let include part end".split()),
        "Line": set(
            "waits rings serves calls sends faults sees writes buffer pool reg budget within code program word".split()
        ),
    },
}
RECORDS = {"measure", "range", "slot"}
KINDS = set("untyped tcb endpoint notification cnode frame table root".split())
CONSTANTS = {"auto", "boot"}
# In lines with these first words, these words before a number say what it is.
OPTIONS = {
    "program": {"checked", "pages", "data", "stack"},
    "page": {"pages"},
    "device": {"pages"},
    "faults": {"as"},
    "waits": {"line", "every", "burst"},
    "rings": {"as"},
    "calls": {"as"},
    "sends": {"as"},
}
# The name of a class in the grammar.
SCOPES = {
    "Comment": "comment.line.number-sign.microsys",
    "Declaration": "storage.type.microsys",
    "Line": "keyword.control.microsys",
    "Record": "meta.preprocessor.microsys",
    "Instruction": "keyword.operator.instruction.microsys",
    "Label": "entity.name.label.microsys",
    "Register": "variable.language.register.microsys",
    "Number": "constant.numeric.microsys",
    "File": "string.unquoted.file.microsys",
    "Option": "keyword.other.option.microsys",
    "Kind": "support.type.microsys",
    "Constant": "constant.language.microsys",
}


def words_of(line: str) -> list[tuple[int, str]]:
    """The words of a line, with their columns; a comment is one, and a label one without its colon."""
    text, mark, _ = line.partition("#")
    found = [(it.start(), it[0]) for it in re.finditer(r"[^ \t,\r]+", text)]
    return [*found, (len(text), "#")] if mark else found


def class_of(form: str, words: list[str], number: int) -> str:
    """What a word of a line is, by the manual; nothing for names."""
    word = words[number]
    first = 1 if words[0].endswith(":") and len(words) > 1 else 0
    if word == "#":
        return "Comment"
    if number == 0 and word.endswith(":"):
        return "Label"
    if number == first:
        return first_class(form, word)
    return other_class(form, words, number)


def first_class(form: str, word: str) -> str:
    """What the first word of a line is, after a label."""
    for name, known in FORMS[form].items():
        if word in known:
            return name
    return "Record" if word in RECORDS else "Instruction" if word in INSTRUCTIONS else ""


def other_class(form: str, words: list[str], number: int) -> str:
    """What a further word of a line is."""
    word, first = words[number], words[0]
    if form == "text" and first == "object" and number == 3 and word in KINDS:
        return "Kind"
    if form == "text" and word in CONSTANTS:
        return "Constant"
    if word in OPTIONS.get(first, set()) and (form == "system" or word != "pages"):
        return "Option"
    if re.fullmatch(r"x([0-9]|[12][0-9]|3[01])", word):
        return "Register"
    if re.fullmatch(r"-?(0x[0-9A-Fa-f]+|[0-9]+)(\(x[0-9]+\))?", word):
        return "Number"
    return "File" if word.endswith(".c") else ""


def samples() -> Iterator[tuple[str, Path]]:
    """The texts and descriptions of the repository."""
    for file in sorted([*ROOT.glob("samples/**/*.txt"), *ROOT.glob("tools/from_c/**/*.txt")]):
        if re.search(r"^memory \d", file.read_text(), re.MULTILINE):
            yield "text", file
    for file in sorted(ROOT.glob("samples/**/*.sys")):
        yield "system", file


def wanted(form: str, file: Path) -> dict[tuple[int, int], tuple[str, str]]:
    """What each word of a file is: by line and column, both from 0, the word and its class."""
    found: dict[tuple[int, int], tuple[str, str]] = {}
    for row, line in enumerate(file.read_text().split("\n")):
        places = words_of(line)
        words = [word for _, word in places]
        for number, (column, word) in enumerate(places):
            found[row, column] = word, class_of(form, words, number)
    return found


def by_grammar(form: str, file: Path) -> dict[tuple[int, int], str]:
    """The scopes that the grammar gives, at the column where each begins."""
    grammar = json.loads((HERE / f"vscode/syntaxes/microsys-{form}.tmLanguage.json").read_text())
    found: dict[tuple[int, int], str] = {}
    for row, line in enumerate(file.read_text().split("\n")):
        found.update({(row, column): scope for column, scope in scopes_of(line, 0, grammar["patterns"], "$")})
    return found


def scopes_of(line: str, at: int, patterns: list[dict], end: str) -> Iterator[tuple[int, str]]:
    """The scopes of a line from a column on, up to where the rule ends whose patterns these are: of the patterns that match
    the one counts that does so first, and of those the first of the list."""
    while at <= len(line):
        matches = [(it, rule) for rule in patterns if (it := re.compile(rule.get("match") or rule["begin"]).search(line, at))]
        stop = re.compile(end).search(line, at)
        if not matches or stop and stop.start() < min(it.start() for it, _ in matches):
            return
        match, rule = min(matches, key=lambda it: it[0].start())
        if "name" in rule:
            yield match.start(), rule["name"]
        for group, named in {**rule.get("captures", {}), **rule.get("beginCaptures", {})}.items():
            yield match.start(int(group)), named["name"]
        at = max(match.end(), at + 1)
        if "begin" in rule:
            inner = list(scopes_of(line, at, rule["patterns"], rule["end"]))
            yield from inner
            ended = re.compile(rule["end"]).search(line, at)
            at = ended.start() if ended else len(line)


def by_vim(form: str, file: Path, words: dict[tuple[int, int], tuple[str, str]], room: Path) -> dict[tuple[int, int], str]:
    """The groups that Vim gives to the first character of each word."""
    script, made = room / "script.vim", room / "groups"
    places = [f"[{row + 1},{column + 1}]" for row, column in words]
    script.write_text(
        f"set nocompatible\nset runtimepath^={HERE}/vim\nset synmaxcol=0\nsyntax on\nset filetype=microsys_{form}\n"
        f"let places = [{','.join(places)}]\n"
        "call writefile(map(places, 'synIDattr(synID(v:val[0], v:val[1], 1), \"name\")'), "
        f"'{made}')\nqa!\n"
    )
    command = ["vim", "-u", "NONE", "-i", "NONE", "-n", "-es", "-S", str(script), str(file)]
    subprocess.run(command, check=True, stdin=subprocess.DEVNULL, capture_output=True, timeout=300)
    groups = made.read_text().split("\n")
    return {place: group.removeprefix("microsys") for place, group in zip(words, groups)}


def main() -> int:
    """The command."""
    wrong = count = 0
    vim = shutil.which("vim")
    if not vim:
        print("skipped: vim: it is not there")
    seen: set[str] = set()
    with tempfile.TemporaryDirectory() as room:
        for form, file in samples():
            words = wanted(form, file)
            scopes = by_grammar(form, file)
            groups = by_vim(form, file, words, Path(room)) if vim else {}
            for (row, column), (word, name) in words.items():
                answers = [scopes.get((row, column), "") == SCOPES.get(name, ""), groups.get((row, column), name) == name]
                count += 1
                seen.add(name)
                if not all(answers):
                    wrong += 1
                    told = f"{scopes.get((row, column), '')}, {groups.get((row, column))}"
                    print(f"{file.relative_to(ROOT)}:{row + 1}:{column + 1}: `{word}` is {name or 'a name'}, not {told}")
    missing = set(SCOPES) - seen
    print(f"{count} words, {wrong} otherwise{', without ' + ', '.join(sorted(missing)) if missing else ''}")
    return 1 if wrong or missing else 0


if __name__ == "__main__":
    sys.exit(main())
