"""histories: compares what the built program's `run --history` prints of ten workloads by chance with what checker.py says, which was written
from docs/FORMATS.md alone. Both that and the program's `check` must call it legal.

    python3 tools/histories [PROGRAM [SEED [COUNT]]]

PROGRAM is crates/sci_sim/out/sci_sim, COUNT is how many workloads. The last line is `N passed, M failed`.
"""

import os
import pathlib
import random
import subprocess
import sys

ROOT = pathlib.Path(__file__).resolve().parents[2]
sys.path.insert(0, str(ROOT / "tools/histories"))
sys.dont_write_bytecode = True

import chance
import checker

GIVEN = sys.argv[1:]
PROGRAM = os.path.realpath(GIVEN[0] if GIVEN else ROOT / "crates/sci_sim/out/sci_sim")
COUNT = int(GIVEN[2]) if GIVEN[2:] else 10


def said(text, *command):
    """What a command of the program comes to."""
    ran = subprocess.run([PROGRAM, *command], input=text, capture_output=True, text=True)
    return ran.returncode, ran.stdout, ran.stderr


def fault(by):
    """What is wrong with the history of a workload, or nothing."""
    text, nodes, lines = chance.settings(by)
    status, history, error = said(text, "run", "--history")
    if status or error or not history.startswith(f"scihistory 1 {nodes} {lines}\n"):
        return f"{status} {error!r} {history[:80]!r} of {text}"
    told = checker.verdict(history), said(history, "check")
    return "" if told == ("legal\n", (0, "legal\n", "")) else f"{told} of the history of {text}"


def main():
    by = random.Random(int(GIVEN[1]) if GIVEN[1:] else 48)
    faults = [it for it in (fault(by) for _ in range(COUNT)) if it]
    for it in faults:
        print(f"histories: {it}", file=sys.stderr)
    print(f"{COUNT - len(faults)} passed, {len(faults)} failed")
    return bool(faults)


if __name__ == "__main__":
    sys.exit(main())
