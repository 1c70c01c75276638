"""Tries the page of states of each race in a browser, and keeps what it found with the page's checksum.

Of one race every state is opened, and every turn taken and taken back, and compared with the rows that the program wrote into the page;
of the others some states. The outcomes are compared with what `outcomes` lists, and runs by chance with what `script` prints of them.
"""

import hashlib
import json
import pathlib
import subprocess

from pages import EXAMPLES, page_of_text, title_of
from trial import told_of

HERE = pathlib.Path(__file__).resolve().parent
RESULTS = HERE / "played.txt"
# The race of which every state and every turn is tried.
WHOLE = "store_meets_loads"
WIDTHS = [(1280, 900), (390, 844)]
# Races of no example: one of two lines whose script has tabs, blanks, returns, and zeros in front of numbers; one with a node that has no
# key; and one without calls.
SCRIPTS = {
    "(written otherwise)": "# A\rstore 0 0 0 9\n# and two loads\n memory\t03 2 \r\nstore 00 0 2 007\n\tload\t01 0 02\n\nload  2 1 0\n",
    "(a node without a key)": "# One turn!\n# One way.\nmemory 12 1\nevict 11 0\n",
    "(no calls)": "# Nobody acts.\nmemory 2 1\n",
}


def wanted_of(program, script):
    """Returns what `outcomes` lists of a race, and its title."""
    done = subprocess.run([program, "outcomes"], check=True, input=script.encode(), stdout=subprocess.PIPE)
    head, *entries = done.stdout.decode().split("\n\n")
    lists = []
    for entry in entries:
        rows = entry.strip("\n").split("\n")
        turns = [row for row in rows if row.startswith("turn ")]
        lists.append({"text": "".join(f"{row}\n" for row in rows if row not in turns), "turns": len(turns)})
    return {"states": int(head.split()[1]), "outcomes": lists, "title": title_of(script)}


def with_trial(page, wanted, is_whole):
    """Returns a page that is tried: at its head what notes its faults, at its end what looks at it."""
    head, end = (HERE / "played.js").read_text(encoding="utf-8").split("// --- behind the page ---\n")
    wanted = json.dumps(wanted | {"isWhole": is_whole})
    page = page.replace("<style>", f"<script>\n{head}const trialWanted = {wanted};\n</script>\n<style>", 1)
    return page.replace("</body>", f"<script>\n{end}</script>\n</body>", 1)


def printed(program, run):
    """Whether the program prints of a run's script what the page says."""
    done = subprocess.run([program, "script"], input=run["script"].encode(), capture_output=True, check=False)
    before = sum(row.startswith("done ") for row in run["script"].split("\n"))
    rows = [row for row in done.stdout.decode().splitlines()[before:] if not row.startswith("tag ")]
    return done.returncode == 0 and rows == run["prints"]


def results_of(program, browser, room, scripts, pages):
    """Tries the pages of these scripts. Returns a line of results for each, and what is wrong."""
    frames = []
    for name, page in pages.items():
        for width, height in WIDTHS:
            file = room / f"played_{len(frames)}.html"
            is_whole = name == WHOLE and width == WIDTHS[0][0]
            file.write_text(with_trial(page, wanted_of(program, scripts[name]), is_whole), encoding="utf-8")
            frames.append({"file": f"file://{file}", "width": width, "height": height})
    told, faults = [], []
    for frame in frames:
        more, console = told_of(browser, room, [frame])
        told += more
        faults += console
    if len(told) != len(frames):
        return {}, faults + [f"the browser tells of {len(told)} pages of states"]
    results = {}
    for i, name in enumerate(pages):
        wide, narrow = told[2 * i : 2 * i + 2]
        faults += [f"the page of states of {name}: {it}" for it in wide["faults"] + narrow["faults"]]
        faults += [f"a run of {name} prints otherwise: {run['script']}" for run in wide["runs"] if not printed(program, run)]
        results[name] = f"{wide['states']} states, {wide['turns']} turns taken, {wide['outcomes']} outcomes, {wide['bubbles']} bubbles"
    return results, faults


def stored():
    """Returns the results that are kept: of each race, the page's checksum and what was found."""
    lines = RESULTS.read_text(encoding="utf-8").split("\n") if RESULTS.exists() else []
    return {name: (digest, found) for digest, name, found in (line.split(": ") for line in lines if line)}


def run(program, browser, room, is_check):
    """Tries the pages, and keeps or compares the results. Returns how many there are, and what is wrong."""
    scripts = {it.stem: it.read_text(encoding="utf-8") for it in sorted(EXAMPLES.glob("*.race"))} | SCRIPTS
    pages = {name: page_of_text(program, script, "outcomes") for name, script in scripts.items()}
    digests = {name: hashlib.sha256(page.encode()).hexdigest() for name, page in pages.items()}
    results, faults = results_of(program, browser, room, scripts, pages) if browser else ({}, [])
    kept = stored()
    if is_check:
        right = {name: (digest, results.get(name, kept.get(name, ("", ""))[1])) for name, digest in digests.items()}
        names = [it for it in sorted({*kept, *right}) if kept.get(it) != right.get(it)]
        faults += [f"tools/pictures/played.txt isn't of the page of states of {it}; python3 tools/pictures tries it" for it in names]
    elif results and not faults:
        RESULTS.write_text("".join(f"{digests[name]}: {name}: {found}\n" for name, found in results.items()), encoding="utf-8")
    return len(pages), faults
