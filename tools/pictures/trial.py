"""Tries the page of each example in a browser, and keeps what it found with the page's checksum."""

import hashlib
import html
import json
import pathlib
import re

from pages import EXAMPLES, browse, page_of, page_of_text, title_of

HERE = pathlib.Path(__file__).resolve().parent
RESULTS = HERE / "trial.txt"
# The example whose grid must stand on one sheet of paper.
PRINTED = "evict_in_purge"
# Scripts of no example: one with more nodes than a picture has, one whose comment has bytes that HTML takes otherwise, and one whose Idle
# nodes wait for each reason that there is, but for a load, which waits for no newcomer.
SHARERS = "load 0 0 0\ndone 0\nload 1 0 0\ndone 1\n"
SCRIPTS = {
    "(18 nodes)": "# A crowd.\n" + "memory 18 1\n" + "".join(f"load {node} 0 0\ndone {node}\n" for node in range(18)),
    "(bytes of a comment)": "# x\rstore 0 0 0 9\0\x7f\x0b\u2028&lt;</pre>\"\u00e9\n# and on\nmemory 2 1\r\nload 0 0 0\ndone 0\nload 1 0 0\n",
    "(Idle nodes that wait)": (
        f"# A newcomer that a load passes by, a leaver, a newcomer, a copy and a purge.\nmemory 3 1\n{SHARERS}load 2 0 0\nturn 2\nturn 2\nload 1 0 0\ndone 1\ndone 2\nevict 2 0\ndone 2\n"
        "evict 1 0\nturn 1\nturn 1\nstore 0 0 0 5\nturn 0\ndone 1\nload 2 0 0\nturn 2\n"
        "turn 2\nturn 0\nturn 2\nturn 0\nend\nload 1 0 0\nturn 1\nturn 1\nturn 1\nstore 2 0 0 7\nturn 2\ndone 1\nend\nload 0 0 0\ndone 0\nstore 0 0 0 9\n"
        "turn 0\nturn 0\nload 2 0 0\nturn 2\nturn 0\nturn 2\nend\n"
    ),
}
TOLD = re.compile(r'(?s)<pre id="told">(.*?)</pre>')
WIDTHS = [(1280, 900), (390, 844)]
# How often the browser may end before its first page has said anything, as it does on a busy machine.
MOST_IDLE = 5
# Opens the pages one after another, and tells what each has said of itself.
HARNESS = """<!DOCTYPE html>
<meta charset="utf-8">
<pre id="told"></pre>
<script>
const pages = PAGES, told = [];
let frame = null;
function next() {
  if (frame) frame.remove();
  const page = pages[told.length];
  if (!page) return;
  frame = document.createElement("iframe");
  [frame.src, frame.width, frame.height, frame.style.border] = [page.file, page.width, page.height, "0"];
  document.body.append(frame);
}
addEventListener("message", event => {
  told.push(event.data);
  document.getElementById("told").textContent = JSON.stringify(told);
  next();
});
next();
</script>
"""


def with_trial(page, name):
    """Returns a page that is tried: at its head what notes its faults, at its end what looks at it, and the script that it is of."""
    text = (HERE / "trial.js").read_text(encoding="utf-8")
    head, end = text.split("// --- behind the page ---\n")
    script = SCRIPTS.get(name) or (EXAMPLES / f"{name}.txt").read_text(encoding="utf-8")
    head += f"const trialScript = {json.dumps(script)}, trialTitle = {json.dumps(title_of(script))};\n".replace("</", "<\\/")
    page = page.replace("<style>", f"<script>\n{head}</script>\n<style>", 1)
    return page.replace("</body>", f"<script>\n{end}</script>\n</body>", 1)


def tried(browser, room, pages):
    """Opens each page at each width, and returns what was told of them in this order."""
    frames = []
    for name, page in pages.items():
        file = room / f"trial_{len(frames)}.html"
        file.write_text(with_trial(page, name), encoding="utf-8")
        frames += [{"file": f"file://{file}", "width": width, "height": height} for width, height in WIDTHS]
    told, console, idle = [], [], 0
    while len(told) < len(frames) and idle < MOST_IDLE:
        more, faults = told_of(browser, room, frames[len(told) :])
        told, console, idle = told + more, console + faults, 0 if more else idle + 1
    return told, console


def told_of(browser, room, frames):
    """Opens these frames, and returns what the first of them have told, all or as many as the browser came to, and its console."""
    harness = room / "harness.html"
    harness.write_text(HARNESS.replace("PAGES", json.dumps(frames)), encoding="utf-8")
    words = ["--enable-logging=stderr", "--virtual-time-budget=600000", "--dump-dom", f"file://{harness}"]
    said, log = browse(browser, room, words)
    found = TOLD.search(said)
    console = [line for line in log.split("\n") if "CONSOLE" in line]
    return json.loads(html.unescape(found[1]) or "[]") if found else [], console


def sheets_of(browser, room, page):
    """Prints a page, and returns how many sheets of paper that takes."""
    file, paper = room / "printed.html", room / "printed.pdf"
    file.write_text(page, encoding="utf-8")
    browse(browser, room, ["--no-pdf-header-footer", f"--print-to-pdf={paper}", f"file://{file}"])
    return len(re.findall(rb"/Type\s*/Page\b(?!s)", paper.read_bytes()))


def results_of(browser, room, pages):
    """Tries the pages. Returns a line of results for each, and what is wrong."""
    told, faults = tried(browser, room, pages)
    if len(told) != len(pages) * len(WIDTHS):
        return {}, faults + [f"the browser tells of {len(told)} pages and widths"]
    results = {}
    for i, name in enumerate(pages):
        wide, narrow = told[2 * i : 2 * i + 2]
        faults += [f"the page of {name}: {it}" for it in wide["faults"] + narrow["faults"]]
        results[name] = f"{wide['turns']} turns, {wide['columns']} columns, text of {wide['text']} px"
    sheets = sheets_of(browser, room, pages[PRINTED])
    if sheets != 1:
        faults.append(f"the grid of {PRINTED} takes {sheets} sheets of paper")
    return results, faults


def stored():
    """Returns the results that are kept: of each example, the page's checksum and what was found."""
    lines = RESULTS.read_text(encoding="utf-8").split("\n") if RESULTS.exists() else []
    return {name: (digest, found) for digest, name, found in (line.split(": ") for line in lines if line)}


def run(program, browser, room, is_check):
    """Tries the pages, and keeps or compares the results. Returns how many there are, and what is wrong."""
    pages = {it.stem: page_of(program, it.stem) for it in sorted(EXAMPLES.glob("*.txt"))}
    pages |= {name: page_of_text(program, script) for name, script in SCRIPTS.items()}
    digests = {name: hashlib.sha256(page.encode()).hexdigest() for name, page in pages.items()}
    results, faults = results_of(browser, room, pages) if browser else ({}, [])
    kept = stored()
    if is_check:
        right = {name: (digest, results.get(name, kept.get(name, ("", ""))[1])) for name, digest in digests.items()}
        names = [it for it in sorted({*kept, *right}) if kept.get(it) != right.get(it)]
        faults += [f"tools/pictures/trial.txt isn't of the page of {it}; python3 tools/pictures tries it in chromium" for it in names]
    elif results and not faults:
        RESULTS.write_text("".join(f"{digests[name]}: {name}: {found}\n" for name, found in results.items()), encoding="utf-8")
    return len(pages), faults
