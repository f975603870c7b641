#!/usr/bin/env python3
"""Looks whether each link in the documents leads to a file that is there, and to a heading of it.

    tools/checks/links.py      a line for each that does not; it fails where there is one"""

import re
import sys
from pathlib import Path

ROOT = Path(__file__).resolve().parents[2]
LINK = re.compile(r"\]\(([^)\s]+)\)")


def documents():
    """The documents, those of the top first."""
    return [*sorted(ROOT.glob("*.md")), *(it for top in ("docs", "samples", "tools") for it in sorted((ROOT / top).rglob("*.md")))]


def anchors(text):
    """The names by which headings are linked, as GitHub makes them."""
    return {re.sub(r"[^a-z0-9 _-]", "", it.lower()).replace(" ", "-") for it in re.findall(r"^#+ (.*)$", text, re.M)}


def wrong_in(document):
    """The links of a document that lead nowhere."""
    for link in LINK.findall(document.read_text("utf-8")):
        name, _, anchor = link.partition("#")
        target = document.parent / name if name else document
        if link.startswith(("http:", "https:")):
            continue
        if not target.exists() or (anchor and target.suffix == ".md" and anchor not in anchors(target.read_text("utf-8"))):
            yield f"{document.relative_to(ROOT)}: {link}"


if __name__ == "__main__":
    found = [line for document in documents() for line in wrong_in(document)]
    print("\n".join(found) or "all links lead somewhere")
    sys.exit(1 if found else 0)
