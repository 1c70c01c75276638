"""Runs `rt ci`, and beside it tries the edits of refused/, those of a library once it is proved: no processor waits for the last checks.

    python3 tools/refused/gate.py FOLDER [--all]

It says what `rt ci` says, and has its status. FOLDER/edits has what became of the edits; its last line is `N passed, M failed`.
FOLDER/seconds has how many seconds the proof of each crate took, FOLDER/spent how many CPU seconds each part of a crate; neither has what
`rt ci` took from an earlier run on this machine.
"""

import argparse
import contextlib
import os
import sys
import threading
import time

sys.dont_write_bytecode = True

import seeds
import spent
from edits import edits_of
from kit import RT, linked
from tasks import report, say, tasks_of_edits
from trying import Trial
from turns import Tried

# how many edits at most in one check
SIZE = 100
# how many jobs at most prove one library, as in the kit
JOBS = 4


class TrialBeside(Trial):
    """A trial whose folder of kept work begins as the crate's seed, what `rt ci` has just proved of it."""

    def __init__(self, crate, to):
        super().__init__(crate, *edits_of(crate), f"{to}/kept/{crate.name}", say)
        self.seed, self.is_tried = f"{to}/seeds/{crate.name}", False

    def begin(self, jobs):
        self.is_tried = True
        # (a look that has begun ends, and the next finds nothing more of this crate)
        with seeds.LOOKING:
            self.is_proved = os.path.isdir(self.seed)
        if self.is_proved:
            linked(self.seed, self.kept)
        super().begin(jobs)


def tasks_of(trials, waits):
    """Returns the tasks for the edits of these crates; each crate's wait for what `waits` gives of its name."""
    return {key: task for it in trials for key, task in tasks_of_edits(it, waits(it.crate.name), SIZE).items()}


def by_all(call):
    """Returns a task's call by as many jobs as there are lanes, but by JOBS at the most; by as many as the kit gives it, where no number of
    lanes is told."""
    lanes = os.environ.get("RT_JOBS", "")
    most = min(JOBS, int(lanes)) if lanes.isdecimal() else 0
    return lambda given, jobs: call(given, most or jobs)


def nearly_all(waiting):
    """Returns whether four of five wait."""
    waiting = [*waiting]
    return 5 * sum(waiting) >= 4 * len(waiting)


def hastened(tasks):
    """Returns the proofs that all others wait for, but those below them, each by more jobs: beside such a one there would be next to
    nothing to do."""
    proofs = {key: it for key, it in tasks.items() if key[1] == "proof"}
    first = [key for key, (waits, *_) in proofs.items() if nearly_all(key in it[0] for other, it in proofs.items() if other not in (key, *waits))]
    return {key: (*tasks[key][:3], by_all(tasks[key][3])) for key in first}


def timed(name, call, table):
    """Returns a task's call that writes its crate's name and its seconds into a table, where it has run a program."""

    def noted(given, jobs):
        begun = time.monotonic()
        well = call(given, jobs)
        if sum(spent.record()):
            print(name, round(time.monotonic() - begun), file=table, flush=True)
        return well

    return noted


def behind_proof(key, task):
    """Returns the task, which waits for its crate's proof too where it proves that crate once more for the edits of must-fail/: it then
    begins over what was proved."""
    return ([*task[0], (key[0], "proof")], *task[1:]) if key[1] == "seed" else task


def beside(in_lanes, trials, table, used):
    """Returns the kit's lanes, but for this: the edits of each crate run in them too, once its library is proved, what all wait for is
    hastened, the proof of each crate is timed, and the CPU seconds of each task are noted. The lanes take first what has the most lines
    before it, so that of the edits counts for next to nothing: they fill what rt ci leaves free."""

    def in_lanes_with_edits(tasks):
        tasks = {key: behind_proof(key, it) for key, it in tasks.items()}
        # (a kit that names its tasks otherwise tries them behind rt ci)
        known = [it for it in trials if (it.crate.name, "proof") in tasks]
        more = tasks_of(known, lambda name: [(name, "proof")])
        more = {key: (waits, lines / 1e6, needs, call) for key, (waits, lines, needs, call) in more.items()}
        proofs = {key: it for key, it in {**tasks, **hastened(tasks)}.items() if key[1] == "proof"}
        proofs = {key: (*it[:3], timed(key[0], it[3], table)) for key, it in proofs.items()}
        counted = {key: (*it[:3], spent.noted(key, it[3], used)) for key, it in {**tasks, **proofs}.items()}
        return in_lanes({**counted, **more})

    return in_lanes_with_edits


def main():
    parser = argparse.ArgumentParser(prog="gate.py", description=__doc__.split("\n")[0])
    parser.add_argument("folder")
    parser.add_argument("--all", action="store_true", help="prove all, and try every edit, whatever was proved and tried before")
    given = parser.parse_args()
    to = os.path.realpath(given.folder)
    os.makedirs(f"{to}/seeds", exist_ok=True)
    # (where there is no crates.txt, rt ci says so)
    crates = RT.rtlib.crates_below(os.getcwd()) if os.path.isfile("crates.txt") else []
    trials = [TrialBeside(it, to) for it in sorted(crates, key=lambda it: len(it.below()))]
    tried = Tried(os.getcwd())
    tried.choose(trials, given.all)
    in_lanes = RT.in_lanes
    table, used = open(f"{to}/seconds", "w", encoding="utf-8"), {}
    RT.in_lanes = beside(in_lanes, trials, table, used)
    name = seeds.name_of_kept()
    if name:
        threading.Thread(target=seeds.watch, args=(f"{to}/seeds", name, os.path.realpath("crates")), daemon=True).start()
        if hasattr(RT, "checked"):
            RT.checked = seeds.begun(f"{to}/seeds", RT.checked)
    status = RT.main(["ci", "--anew"] if given.all else ["ci"])
    if not status:
        in_lanes(tasks_of([it for it in trials if not it.is_tried], lambda name: []))
    with open(f"{to}/edits", "w", encoding="utf-8") as said, contextlib.redirect_stdout(said):
        report(trials, tried)
    with open(f"{to}/spent", "w", encoding="utf-8") as said:
        said.writelines(spent.rows(used, trials))
    return status


if __name__ == "__main__":
    sys.exit(main())
