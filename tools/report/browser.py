#!/usr/bin/env python3
"""Pages of `microsys_tool report` as a browser lays them out: chromium, which must be there, at the width of a sheet of A4 and of a wide window.

  tools/report/browser.py TOOL            a line for each page; status 1 where something is not as it should be
  tools/report/browser.py TOOL FOLDER     besides, leaves pictures of the pages there, in colours, in greys, and as they are printed

Of each page: all sentences of the data are in the text that is shown; no two boxes of the picture overlap, and each of its words is in one box or in
none; nothing is wider than the page. That a page has no script and fetches nothing is seen by `pages.py`; the script that looks is put in for that."""

import html
import importlib.util
import json
import re
import shutil
import subprocess
import sys
import tempfile
from pathlib import Path

ROOT = Path(__file__).resolve().parents[2]
BROWSER = shutil.which("chromium") or shutil.which("chromium-browser") or shutil.which("google-chrome")
# Widths in pixels of CSS: 210 mm, and a wide window.
WIDTHS = [794, 1600]
LOOK = """<script>
window.addEventListener("load", () => {
  const place = it => { const r = it.getBoundingClientRect(); return [r.left, r.top, r.right, r.bottom]; };
  const found = {boxes: [...document.querySelectorAll("svg rect")].map(place),
    words: [...document.querySelectorAll("svg text")].map(it => [...place(it), it.textContent]),
    wide: Math.max(...[...document.querySelectorAll("body *")].map(it => it.getBoundingClientRect().right)), width: document.documentElement.clientWidth,
    text: document.body.innerText};
  document.documentElement.innerHTML = "<pre id=found></pre>"; document.getElementById("found").textContent = JSON.stringify(found);
});
</script>"""


def pages():
    """The script that judges pages as texts."""
    spec = importlib.util.spec_from_file_location("report_pages", ROOT / "tools/report/pages.py")
    module = importlib.util.module_from_spec(spec)
    spec.loader.exec_module(module)
    return module


def browse(*words):
    """What the browser says."""
    flags = ["--headless", "--no-sandbox", "--disable-gpu", "--hide-scrollbars", "--virtual-time-budget=20000"]
    return subprocess.run([BROWSER, *flags, *words], capture_output=True, text=True, check=True).stdout


def overlap(one, other):
    """Whether two rectangles share more than a hair."""
    return one[0] + 0.5 < other[2] and other[0] + 0.5 < one[2] and one[1] + 0.5 < other[3] and other[1] + 0.5 < one[3]


def is_in(one, other):
    """Whether one lies within the other, up to a hair."""
    return other[0] - 0.5 <= one[0] and one[2] <= other[2] + 0.5 and other[1] - 0.5 <= one[1] and one[3] <= other[3] + 0.5


def wrong_at(page, width, sentences, room):
    """What is wrong with a page in a window of this width."""
    looked = room / "looked.html"
    looked.write_text(page.replace("</head>", LOOK + "</head>", 1), "utf-8")
    shown = browse(f"--window-size={width},1200", "--dump-dom", looked.as_uri())
    found = json.loads(html.unescape(re.search(r"<pre id=\"found\">(.*)</pre>", shown, re.S)[1]))
    wrong = [f"boxes {one} and {other}" for at, one in enumerate(found["boxes"]) for other in found["boxes"][at + 1 :] if overlap(one, other)]
    wrong += [f"{word[4]} is in part in a box" for word in found["words"] for box in found["boxes"] if overlap(word, box) and not is_in(word, box)]
    if found["wide"] > found["width"] + 0.5:
        wrong.append(f"{found['wide']} wide, of {found['width']}")
    flat = " ".join(found["text"].split())
    wrong += [f"not shown: {it}" for it in sentences if " ".join(it.split()) not in flat]
    return wrong


def show(page, name, folder, room):
    """Leaves pictures of a page."""
    for kind, style in (("colours", ""), ("greys", "<style>html { filter: grayscale(1); background: white }</style>")):
        shown = room / f"{kind}.html"
        shown.write_text(page.replace("</head>", style + "</head>", 1), "utf-8")
        browse(f"--window-size={WIDTHS[0]},3000", f"--screenshot={folder / f'{name}-{kind}.png'}", shown.as_uri())
    browse(f"--print-to-pdf={folder / f'{name}.pdf'}", "--no-pdf-header-footer", (room / "colours.html").as_uri())


def main(words):
    """The command."""
    if BROWSER is None:
        print("chromium is not there, so no page is looked at")
        return 1
    module = pages()
    module.TOOL = str(Path(words[0]).absolute())
    folder = Path(words[1]).absolute() if len(words) > 1 else None
    bad = 0
    with tempfile.TemporaryDirectory(prefix="microsys.") as room_name:
        room = Path(room_name)
        (room / "crowd.sys").write_text(module.crowd(), "ascii")
        (room / "crowd.events").write_text("irq 0\n" + "step\n" * 100, "ascii")
        for system, events in [*module.systems(), (str(room / "crowd.sys"), [str(room / "crowd.events")]), (module.REFUSED, [])]:
            status = 1 if system == module.REFUSED else 0
            module.said("report", system, str(room / "page.html"), *events, status=status)
            report = json.loads(module.said("report", system, "-", *events, "--json", status=status))
            page = (room / "page.html").read_text("utf-8")
            sentences = [it["text"] for it in report.get("statements", [])] + report.get("explanation", [])
            wrong = [f"at {width}: {it}" for width in WIDTHS for it in wrong_at(page, width, sentences, room)]
            bad += bool(wrong)
            name = Path(system).stem
            print(f"{system}: {'as expected' if not wrong else '; '.join(wrong[:5])}", flush=True)
            if folder is not None:
                show(page, name, folder, room)
    return 1 if bad else 0


if __name__ == "__main__":
    sys.exit(main(sys.argv[1:]))
