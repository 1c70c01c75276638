"""Writes and checks what the documents show of the pages of `scisim trace --page`, and tries those pages in a browser.

    python3 tools/pictures [--check] [PROGRAM]

- docs/pictures/NAME-N.svg: the picture of turn N of examples/NAME.txt, where a document shows it;
- docs/pages/NAME.html: the page of examples/NAME.txt, or of the states of examples/NAME.race, where docs/pages/README.md links it;
- tools/pictures/trial.txt: what Debian's chromium finds in the page of each example, with the page's checksum: its grid, its keys, its
  console, its width on a screen and on a telephone, and its print;
- tools/pictures/played.txt: the same of the page of states of each race: every turn and arrow of one race beside the rows that it has,
  its outcomes beside those of `outcomes`, and runs by chance beside what `script` prints.

With --check nothing is written, and the status is 1 where anything differs. Where there is no chromium nothing is drawn or tried: --check
then asks that the pictures and the results are there, and that the results are of these very pages. PROGRAM is
crates/sci_sim/out/sci_sim, or the one that is named.
"""

import pathlib
import shutil
import sys
import tempfile

import drawn
import finished
import played
import trial

ROOT = pathlib.Path(__file__).resolve().parents[2]


def main(words):
    is_check = "--check" in words
    named = [word for word in words if word != "--check"]
    program = str(pathlib.Path(named[0] if named else ROOT / "crates/sci_sim/out/sci_sim").resolve())
    browser = shutil.which("chromium")
    if not browser:
        print("pictures: there is no chromium, so nothing is drawn or tried; the stored results are compared by checksum")
    with tempfile.TemporaryDirectory(prefix="pictures-") as room:
        counts, faults = [], []
        for part in (drawn, finished, trial, played):
            count, wrong = part.run(program, browser, pathlib.Path(room), is_check)
            counts.append(count)
            faults += wrong
    for fault in faults:
        print(f"pictures: {fault}", file=sys.stderr)
    done = "tried" if browser else "compared by checksum"
    print(f"pictures: {counts[0]} shown, {counts[1]} finished pages, {counts[2]} pages and {counts[3]} of states {done}, {len(faults)} faults")
    return 1 if faults or not all(counts) else 0


if __name__ == "__main__":
    sys.exit(main(sys.argv[1:]))
