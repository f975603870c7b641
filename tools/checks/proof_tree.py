#!/usr/bin/env python3
"""Prints the trees of docs/PROOF.md: which law rests on which. A law is a function without parameters whose contract is a
statement; its body does nothing but name the laws on which its proof rests. What a law says is its comment.

The first tree is that of the headline, the second part has the laws that it does not reach, by crate: each with the laws
below it, those first that no other law names.

    tools/checks/proof_tree.py            prints the trees
    tools/checks/proof_tree.py --check    fails where docs/PROOF.md has others
    tools/checks/proof_tree.py --write    puts them there
"""

import re
import sys
import textwrap
from pathlib import Path

ROOT = Path(__file__).resolve().parents[2]
PAGE = ROOT / "docs/PROOF.md"
BEGIN, END = "<!-- made by tools/checks/proof_tree.py --write -->\n", "<!-- end of what is made -->\n"
HEADLINE = "accepted_images_run_safely"
# What is shown on definitions alone, for readers: docs/DEFINITIONS.md lists it.
APART = "model_laws"
COLUMNS = 120
LAW = re.compile(
    r"(?P<comment>(?:^///.*\n)+)?(?:^#\[.*\]\n)*^(?:pub(?:\(crate\))? )?fn (?P<name>\w+)\(\)(?P<contract>(?:\n    .*)*?)\n?\{"
    r"(?P<body>\}|\n(?:.*\n)*?\})",
    re.M,
)


class Law:
    def __init__(self, crate, file, match):
        self.crate, self.name = crate, match["name"]
        self.place = f"{crate}/{file.relative_to(ROOT / 'crates' / crate)}"
        comment = " ".join(re.findall(r"^/// ?(.*)", match["comment"] or "", re.M))
        self.sentence = re.sub(r"\[(`\w+`)\]", r"\1", comment)
        self.named = re.findall(r"^    (?:\w+::)*(\w+)\(\);", match["body"], re.M)


def laws():
    """All laws, by crate and name, in the order of crates.txt and of their files."""
    found = {}
    for crate in re.findall(r"^(\w+):", (ROOT / "crates.txt").read_text(encoding="utf-8"), re.M):
        for file in sorted((ROOT / "crates" / crate / "src").rglob("*.rt")):
            for match in LAW.finditer(file.read_text(encoding="utf-8")):
                if re.search(r"^    ensures\b", match["contract"], re.M):
                    found[crate, match["name"]] = Law(crate, file, match)
    return found


def below(law, all_laws):
    """The laws that a law names: of its own crate, or else the one of that name."""
    for name in law.named:
        own = all_laws.get((law.crate, name))
        others = [it for (_, other), it in all_laws.items() if other == name]
        if own or others:
            yield own or others[0]


def item(depth, text):
    """An item of a list, with its lines."""
    indent = "  " * depth
    return textwrap.fill(
        text, COLUMNS, initial_indent=f"{indent}- ", subsequent_indent=f"{indent}  ", break_long_words=False, break_on_hyphens=False
    )


def tree(law, all_laws, shown, depth=0):
    """A law and what it rests on, each law once."""
    shown.add(law)
    lines = [item(depth, f"`{law.name}` (`{law.place}`): {law.sentence}")]
    again = []
    for it in below(law, all_laws):
        if it in shown:
            again.append(f"`{it.name}`")
        else:
            lines += tree(it, all_laws, shown, depth + 1)
    return lines + ([item(depth + 1, f"and {', '.join(again)}, as above")] if again else [])


def page():
    """The tree of the headline, and the others by crate."""
    all_laws = laws()
    shown = set()
    head = next(it for it in all_laws.values() if it.name == HEADLINE)
    lines = ["## The tree of the headline", "", *tree(head, all_laws, shown), "", "## Other laws", ""]
    named = {it for law in all_laws.values() for it in below(law, all_laws)}
    others = [it for it in all_laws.values() if it.crate != APART and it not in shown]
    for crate in dict.fromkeys(it.crate for it in others):
        first = [it for it in others if it.crate == crate and it not in named]
        if not first:
            continue
        lines += [f"### `{crate}`", ""]
        for law in first:
            lines += tree(law, all_laws, shown) if law not in shown else []
        lines.append("")
    return "\n".join(lines).rstrip("\n") + "\n"


def main():
    made = page()
    if len(sys.argv) == 1:
        print(made, end="")
        return
    text = PAGE.read_text(encoding="utf-8")
    before, _, rest = text.partition(BEGIN)
    held, _, after = rest.partition(END)
    if sys.argv[1] == "--write":
        PAGE.write_text(before + BEGIN + made + END + after, encoding="utf-8")
    elif held != made:
        sys.exit("docs/PROOF.md: the trees are not those of the laws: tools/checks/proof_tree.py --write")


if __name__ == "__main__":
    main()
