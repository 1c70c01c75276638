"""The finished pages of docs/pages/: those of the examples that docs/pages/README.md links."""

import re

from pages import EXAMPLES, ROOT, page_of, page_of_race

PAGES = ROOT / "docs" / "pages"
LINKED = re.compile(r"\]\((\w+)\.html\)")


def run(program, browser, room, is_check):
    """Writes the pages that are linked, or compares them. Returns how many there are, and what is wrong."""
    wanted = sorted(set(LINKED.findall((PAGES / "README.md").read_text(encoding="utf-8"))))
    there = {it.stem for it in PAGES.glob("*.html")}
    faults = []
    for name in wanted:
        file = PAGES / f"{name}.html"
        text = page_of(program, name) if (EXAMPLES / f"{name}.txt").exists() else page_of_race(program, name)
        if not is_check:
            file.write_text(text, encoding="utf-8")
        elif name in there and file.read_text(encoding="utf-8") != text:
            faults.append(f"docs/pages/{name}.html isn't what is drawn; python3 tools/pictures writes it")
    if is_check:
        faults += [f"docs/pages/{it}.html isn't linked, or isn't there" for it in sorted(set(wanted) ^ there)]
    return len(wanted), faults
