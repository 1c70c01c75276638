"""The pictures of docs/pictures/, which the documents show.

A document shows `pictures/NAME-N.svg` for turn N of examples/NAME.txt: the picture that the page of `scisim trace --page` has at #step=N, in a
window of 1280 by 900.
"""

import re
import sys
import xml.etree.ElementTree

from pages import ROOT, browse, page_of

PICTURES = ROOT / "docs" / "pictures"
SHOWN = re.compile(r"\]\((?:docs/)?pictures/((\w+)-(\d+)\.svg)\)")
STYLE = re.compile(r"(?m)^svg .*$")
DRAWN = re.compile(r'(?s)<div id="picture">(<svg .*?</svg>)</div>')


def shown():
    """Returns the pictures that documents show: each file's name, its example and its turn."""
    documents = [ROOT / "README.md", *sorted((ROOT / "docs").glob("*.md"))]
    return sorted({found for it in documents for found in SHOWN.findall(it.read_text(encoding="utf-8"))})


def picture_of(program, browser, room, name, turn):
    """Returns the picture of a turn, as a file of its own."""
    page = page_of(program, name)
    file = room / f"{name}.html"
    file.write_text(page, encoding="utf-8")
    said, _ = browse(browser, room, ["--dump-dom", f"file://{file}#step={turn}"])
    found = DRAWN.search(said)
    if not found:
        sys.exit(f"pictures: the page of {name} shows no picture at its turn {turn}")
    style = "\n".join(STYLE.findall(page))
    text = found[1].replace("<svg ", '<svg xmlns="http://www.w3.org/2000/svg" ', 1)
    text = text.replace("<defs>", f"<style>\n{style}\n</style><defs>", 1).replace("><", ">\n<") + "\n"
    xml.etree.ElementTree.fromstring(text)
    return text


def run(program, browser, room, is_check):
    """Draws the pictures that are shown, or compares them. Returns how many there are, and what is wrong."""
    wanted = shown()
    there = {it.name for it in PICTURES.glob("*")}
    faults = []
    for file, name, turn in wanted if browser else []:
        text = picture_of(program, browser, room, name, turn)
        if not is_check:
            PICTURES.mkdir(exist_ok=True)
            (PICTURES / file).write_text(text, encoding="utf-8")
        elif file in there and (PICTURES / file).read_text(encoding="utf-8") != text:
            faults.append(f"{file} isn't what is drawn of it; python3 tools/pictures writes it")
    if is_check:
        faults += [f"{it} isn't shown, or isn't there" for it in sorted({file for file, _, _ in wanted} ^ there)]
    return len(wanted), faults
