#!/usr/bin/env python3
"""Keeps the lists of the words of `microsys_tool` the same: the words are those of crates/tool_requests/src/words.rt, and those
that tools/make_system adds. The completions of bash and zsh, and the table of docs/MANUAL.md, are made of them; the manual
page has to name each word and each of its options, and tools/make_system has to know each word that takes a system.

    tools/checks/tool_words.py --check    fails where a list has other words
    tools/checks/tool_words.py --write    makes the completions and the table anew
"""

import ast
import re
import sys
from dataclasses import dataclass
from pathlib import Path

ROOT = Path(__file__).resolve().parents[2]
SOURCE = ROOT / "crates/tool_requests/src/words.rt"
BASH, ZSH = ROOT / "tools/completions/microsys_tool", ROOT / "tools/completions/_microsys_tool"
PAGE, MANUAL, GUIDE = ROOT / "docs/man/microsys_tool.1", ROOT / "docs/MANUAL.md", ROOT / "docs/GUIDE.md"
SCRIPT, STARTER = ROOT / "tools/make_system/make_system.py", ROOT / "tools/make_system/microsys_tool"
BEGIN, END = "<!-- made by tools/checks/tool_words.py --write -->\n", "<!-- end of what is made -->\n"
# The section on a word, of the guide or of the manual.
SECTIONS = {
    "make": "A system in a page",
    "expand": "A system in a page",
    "certify": "Certificates that are found",
    "test": "Bytes alone, and what is expected",
    "run": "Runs by names",
    "gdb": "Debugging",
    "explain": "Explanations",
    "draw": "Pictures",
    "chart": "Pictures",
    "list": "What an image holds, and what changes between two",
    "diff": "What an image holds, and what changes between two",
    "cover": "What ran",
    "parts": "Parts",
    "response": "How soon",
    "alone": "Parts",
    "report": "A page for who signs",
}
# Arguments that are systems, whose parts may be in C.
SYSTEMS = {"SYSTEM", "DESCRIPTION", "SOURCE", "BEFORE", "AFTER"}
# Words that take images and texts alone.
PLAIN = {"build"}


@dataclass(frozen=True)
class Argument:
    form: str
    help: str

    @property
    def is_option(self):
        return self.form.startswith("-")

    @property
    def flag(self):
        return self.form.split(" ")[0]

    @property
    def value(self):
        return self.form.partition(" ")[2]


@dataclass(frozen=True)
class Word:
    name: str
    about: str
    arguments: tuple
    # Whether tools/make_system takes it so, and not the program.
    is_added: bool = False

    @property
    def options(self):
        return [it for it in self.arguments if it.is_option]

    @property
    def places(self):
        return [it for it in self.arguments if not it.is_option]

    @property
    def usage(self):
        """The word and what follows it, as the manual has it."""
        return " ".join([self.name, *(f"[{it.form.lstrip('?')}]" if it.is_option or it.form[0] == "?" else it.form for it in self.arguments)])


# What tools/make_system takes besides.
ADDED = [
    Word(
        "test",
        "Does so for each case of a folder, and puts a line for each",
        (Argument("SYSTEM", ""), Argument("FOLDER", ""), Argument("--only NAME", "the cases with this in their names")),
        True,
    ),
    Word(
        "make",
        "Writes beside the image the symbols of its parts for gdb, where the assembler for RISC-V is there",
        (Argument("SYSTEM", ""), Argument("IMAGE", ""), Argument("--symbols FILE", "the ELF file that gets instructions, labels and lines")),
        True,
    ),
]
# The words that tools/make_system has alone.
ALONE = [
    Word(
        "cover",
        "Runs a system over lists of events, and says what of each part ran, and how near it came to its budget",
        (
            Argument("SYSTEM", "the file of a description or of a text"),
            Argument("EVENTS", "one list of events or more, which add up"),
            Argument("--info FILE", "the file that gets how often each line ran, for lcov"),
        ),
    )
]


def words():
    """The words in the order of the source, and after each what is added."""
    text = SOURCE.read_text(encoding="utf-8")
    text = re.sub(r"\\\n\s*", "", text)  # a literal goes on behind a backslash at a line's end
    constants = {name: value for name, value in re.findall(r'^const (\w+): &str =\s*"((?:[^"\\]|\\.)*)";', text, re.M)}
    said = lambda it: constants[it] if it in constants else it.strip('"')
    argument = r"Argument(?:<'_>)? ?(?:= Argument )?\{\s*form: (\"[^\"]*\"|\w+),\s*help: (\"[^\"]*\"|\w+),\s*\}"
    shared = {name: Argument(said(form), said(help)) for name, form, help in re.findall(rf"^const (\w+): {argument};", text, re.M)}
    found = []
    for name, about, rest in re.findall(r'Word \{\s*name: "(\w+)",\s*about: "([^"]*)",\s*arguments: &\[(.*?)\],\s*\}(?:,\n|\];)', text, re.S):
        arguments = []
        for form, help, constant in re.findall(rf"{argument}|\b([A-Z_]+),?\s*$", rest, re.M):
            arguments.append(shared[constant] if constant else Argument(said(form), said(help)))
        found += [Word(name, about, tuple(arguments)), *(it for it in ADDED if it.name == name)]
    return found + ALONE


def options_of(all_words):
    """The names of the words in their order, and the options of each."""
    names = dict.fromkeys(it.name for it in all_words)
    return {name: [option for it in all_words if it.name == name for option in it.options] for name in names}


def bash(all_words):
    """The completion of bash."""
    options = options_of(all_words)
    names = " ".join(options)
    cases = [
        f"        {name}) words='{' '.join([it.flag for it in own] + ['--help'])}' ;;" for name, own in options.items() if own
    ]
    return "\n".join(
        [
            "# Completion of `microsys_tool` for bash. Made by tools/checks/tool_words.py --write.",
            "_microsys_tool() {",
            '    local word="${COMP_WORDS[COMP_CWORD]}"',
            f"    local words='{names} help'",
            '    if [ "$COMP_CWORD" = 1 ]; then',
            '        mapfile -t COMPREPLY < <(compgen -W "$words --help --version" -- "$word")',
            '    elif [ "${COMP_WORDS[1]}" = help ]; then',
            '        mapfile -t COMPREPLY < <(compgen -W "$words" -- "$word")',
            '    elif [[ "$word" == -* ]]; then',
            '        case "${COMP_WORDS[1]}" in',
            *cases,
            "        *) words='--help' ;;",
            "        esac",
            '        mapfile -t COMPREPLY < <(compgen -W "$words" -- "$word")',
            "    else",
            "        compopt -o filenames",
            '        mapfile -t COMPREPLY < <(compgen -f -- "$word")',
            "    fi",
            "}",
            "complete -F _microsys_tool microsys_tool",
            "",
        ]
    )


def begun(text):
    """A sentence that goes on after something."""
    return text[0].lower() + text[1:]


def plain(text):
    """A text between single quotes and brackets."""
    return re.sub(r"[`']", "", text).replace("[", "(").replace("]", ")").replace(":", ",")


def zsh(all_words):
    """The completion of zsh."""
    known = [f"        '{it.name}:{plain(begun(it.about))}'" for it in all_words if not it.is_added]
    cases = []
    for name, options in options_of(all_words).items():
        specs = []
        for it in options:
            again = "*" if it.flag == "-D" or it.value.endswith(" ..") else ""
            value = f":{plain(it.value).lower()}:" if it.value else ""
            specs.append(f"'{again}{it.flag}[{plain(it.help)}]{value}'")
        if specs:
            cases.append(f"    {name}) _arguments {' '.join(specs)} '*:file:_files' ;;")
    return "\n".join(
        [
            "#compdef microsys_tool",
            "# Completion of `microsys_tool` for zsh. Made by tools/checks/tool_words.py --write.",
            "_microsys_tool() {",
            "    local -a known",
            "    known=(",
            *known,
            "        'help:say what a word does'",
            "    )",
            "    if (( CURRENT == 2 )); then",
            "        _describe 'word' known",
            "        return",
            "    fi",
            "    case $words[2] in",
            "    help) _describe 'word' known ;;",
            *cases,
            "    *) _arguments '--help[say what the word does]' '*:file:_files' ;;",
            "    esac",
            "}",
            '_microsys_tool "$@"',
            "",
        ]
    )


def link_to(section):
    """The link from the manual to a section of it or of the guide, which fails where neither has it."""
    heading = f"\n## {section}\n"
    places = [name for name, page in (("", MANUAL), (GUIDE.name, GUIDE)) if heading in page.read_text(encoding="utf-8")]
    if not places:
        sys.exit(f"{section}: no section of the guide or of the manual")
    return places[0] + "#" + re.sub(r"[^a-z0-9 -]", "", section.lower()).replace(" ", "-")


def table(all_words):
    """The table of the manual."""
    rows = ["| words | what they do |", "|---|---|"]
    for it in all_words:
        section = SECTIONS.get(it.name, "")
        rows.append(f"| `{it.usage}` | {begun(it.about)}{f' ([{section}]({link_to(section)}))' if section else ''} |")
    last = "| `help [WORD]`, `WORD --help`, `--version` | how each word is used; the versions of the program, of images, and of the kit |"
    return "\n".join([*rows, last]) + "\n"


def manual(all_words):
    """The manual with the table."""
    text = MANUAL.read_text(encoding="utf-8")
    before, begin, rest = text.partition(BEGIN)
    _, end, after = rest.partition(END)
    if not begin or not end:
        sys.exit("docs/MANUAL.md: the table of the words of `microsys_tool` has no place")
    return before + BEGIN + table(all_words) + END + after


def made(all_words):
    """Each file that is made, with what is in it."""
    return {BASH: bash(all_words), ZSH: zsh(all_words), MANUAL: manual(all_words)}


def missing_in_page(all_words):
    """What the manual page does not name: words at the head of an item, and options in the items of their words."""
    text = PAGE.read_text(encoding="utf-8").replace("\\-", "-")
    items = re.split(r"^\.TP\n", text, flags=re.M)[1:]
    for it in all_words:
        own = [item for item in items if re.search(rf"\b{it.name}\b", item.split("\n")[0])]
        if not own:
            yield f"{PAGE.relative_to(ROOT)}: no item of `{it.name}`"
        for option in it.options:
            if own and not any(option.flag in item for item in own):
                yield f"{PAGE.relative_to(ROOT)}: the item of `{it.name}` does not name {option.flag}"


def started():
    """What tools/make_system/microsys_tool has of SYSTEMS, and of OPTIONS."""
    text, found = STARTER.read_text(encoding="utf-8"), {}
    for names, systems, least, most in re.findall(r"^([a-z |]+)\) systems='?([1-9 ]+)'? least=(\d+) most=(\d+) ;;$", text, re.M):
        counted = tuple(int(it) - 1 for it in systems.split()), int(least), int(most)
        found.update({name: counted for name in names.split(" | ")})
    return found, set(re.search(r"^    (-[-A-Za-z |]+)\) is_value=yes", text, re.M)[1].split(" | "))


def other_in_script(all_words):
    """Where tools/make_system counts otherwise the systems and files after a word, or does not get a word that takes systems."""
    text = SCRIPT.read_text(encoding="utf-8")
    held = ast.literal_eval(re.search(r"^SYSTEMS = (\{.*?^\})", text, re.M | re.S)[1])
    options = ast.literal_eval(re.search(r"^OPTIONS = (\{.*?\})", text, re.M | re.S)[1])
    starter, skipped = started()
    for it in all_words:
        systems = tuple(number for number, place in enumerate(it.places) if place.form.lstrip("?") in SYSTEMS)
        if it.is_added or it.name in PLAIN:
            continue
        if systems and it.name not in held:
            yield f"{SCRIPT.relative_to(ROOT)}: SYSTEMS has no `{it.name}`"
        if it.name in held and held[it.name][0] != systems:
            yield f"{SCRIPT.relative_to(ROOT)}: the systems of `{it.name}` are words {systems}"
        for option in it.options:
            if it.name in held and option.value and option.flag not in options:
                yield f"{SCRIPT.relative_to(ROOT)}: OPTIONS has no {option.flag}"
    for name in sorted(name for name in starter.keys() | held.keys() if name != "cover" and starter.get(name) != held.get(name)):
        yield f"{STARTER.relative_to(ROOT)}: `{name}` is not given to the script as SYSTEMS has it"
    if skipped != options:
        yield f"{STARTER.relative_to(ROOT)}: the options with a word after them are not those of OPTIONS: {' '.join(sorted(skipped ^ options))}"


def main():
    all_words = words()
    if sys.argv[1:] == ["--write"]:
        for file, text in made(all_words).items():
            file.write_text(text, encoding="utf-8")
        return
    wrong = [f"{file.relative_to(ROOT)}: not as the words are: tools/checks/tool_words.py --write" for file, text in made(all_words).items()
             if file.read_text(encoding="utf-8") != text]
    wrong += [*missing_in_page(all_words), *other_in_script(all_words)]
    if wrong:
        sys.exit("\n".join(wrong))


if __name__ == "__main__":
    main()
