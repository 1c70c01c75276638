"""hostile: gives the built program texts by chance that were changed in a few places, and compares what it says with second readers.

    python3 tools/hostile [--seed N] [--count N] [--program PATH] [NAME ..]

NAME is scripts, dumps, histories, logs or settings; without one all are tried. Of each so many texts are tried, 10,000. The seed
is the commit's hash where git knows one, else 1. PATH is crates/sci_sim/out/sci_sim. No text may end the program by a signal, or take
more than ten seconds. Of texts that fail three of each NAME are kept, with lines left out while they fail; behind some that fail no
more are tried. The last line is `N passed, M failed`.
"""
import argparse
import importlib
import multiprocessing
import os
import pathlib
import random
import shutil
import subprocess
import sys
import tempfile
import time

ROOT = pathlib.Path(__file__).resolve().parents[2]
sys.path[:0] = [str(ROOT / "tools" / it) for it in ("hostile", "histories", "law")]
sys.dont_write_bytecode = True

from running import Program

# Python has a reader of TOML since 3.11.
NAMES = ["scripts", "dumps", "histories", "logs", "settings"][: 5 if sys.version_info >= (3, 11) else 4]
FORMATS = {it: importlib.import_module(it) for it in NAMES}
# How many texts a process is given at once, behind how many that fail no more of a format are tried, how many of these are kept, and how
# many seconds each is made smaller.
PART, ENOUGH, KEPT, SHRINKING = 10, 20, 3, 20


def seed_of_commit():
    """The commit's hash, or 1 where git knows none."""
    command = ["git", "rev-parse", "--short=12", "HEAD"]
    found = shutil.which("git") and subprocess.run(command, cwd=ROOT, capture_output=True, text=True, check=False).stdout
    return found.strip() if found else "1"


def begin(path):
    """Gives a process its program."""
    global program
    program = Program(path)


def fault(name, text):
    """What is wrong with what the program says of a text, or nothing."""
    return FORMATS[name].wrong(lambda *words: program.run(text, *words), text)


def shrunk(name, text):
    """The text with lines left out while it still fails, as long as there is time."""
    lines, end = text.splitlines(keepends=True), time.monotonic() + SHRINKING
    size = len(lines) // 2
    while size:
        at = 0
        while at < len(lines) and time.monotonic() < end:
            less = lines[:at] + lines[at + size :]
            if fault(name, b"".join(less)):
                lines = less
            else:
                at += size
        size //= 2
    return b"".join(lines)


def tried(work):
    """How many texts of one part pass, and those that fail, each with its number."""
    name, seed, numbers = work
    found = []
    for number in numbers:
        text = FORMATS[name].text(random.Random(f"{seed} {name} {number}"))
        if fault(name, text):
            found.append((number, text))
    return len(numbers) - len(found), found


def tried_all(name, wanted, path):
    """The same of all texts of a format, as long as few fail."""
    parts = [(name, wanted.seed, range(at, min(at + PART, wanted.count))) for at in range(0, wanted.count, PART)]
    passed, found = 0, []
    with multiprocessing.Pool(len(os.sched_getaffinity(0)), begin, (path,)) as pool:
        for right, wrong in pool.imap(tried, parts):
            passed, found = passed + right, found + wrong
            if len(found) >= ENOUGH:
                break
    return passed, found


def keep(name, number, text):
    """Keeps a text that fails, and says what is wrong with it."""
    text = shrunk(name, text)
    with tempfile.NamedTemporaryFile(prefix=f"hostile-{name}-", delete=False) as file:
        file.write(text)
    print(f"hostile: {name}: text {number}, kept in {file.name}: {fault(name, text)[:600]}", file=sys.stderr)


def main():
    given = argparse.ArgumentParser(prog="hostile")
    given.add_argument("--seed", default=seed_of_commit())
    given.add_argument("--count", type=int, default=10_000)
    given.add_argument("--program", default=ROOT / "crates/sci_sim/out/sci_sim")
    given.add_argument("names", nargs="*", metavar="NAME")
    wanted = given.parse_args()
    if set(wanted.names) - set(NAMES):
        given.error(f"the names are {' '.join(NAMES)}")
    path, names = os.path.realpath(wanted.program), wanted.names or NAMES
    print(f"hostile: seed {wanted.seed}, {wanted.count} texts of {', '.join(names)}", flush=True)
    begin(path)
    passed, failed = 0, 0
    for name in names:
        right, found = tried_all(name, wanted, path)
        passed, failed = passed + right, failed + len(found)
        for number, text in found[:KEPT]:
            keep(name, number, text)
    print(f"{passed} passed, {failed} failed")
    return failed != 0


if __name__ == "__main__":
    sys.exit(main())
