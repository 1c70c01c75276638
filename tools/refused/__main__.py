"""Tries the edits of crates/NAME/refused/, many in one check: the prover must refuse each by a goal of its own function.

    python3 tools/refused [--warm] [--built] [--all] [--size N] [NAME ..]
    python3 tools/refused --note LOG

README.md beside this file says how. The last line is `N passed, M failed`; the status is 0 where none failed.
"""

import argparse
import os
import pathlib
import shutil
import sys
import tempfile

sys.path.insert(0, str(pathlib.Path(__file__).resolve().parent))
sys.dont_write_bytecode = True

from edits import edits_of
from kit import RT, linked
from tasks import report, say, tasks_of_edits
from trying import Trial
from turns import FILE, Tried, noted

ROOT = pathlib.Path(__file__).resolve().parents[2]


def copy_of(root, room, kept):
    """Copies what a check reads of the repository, and what earlier checks kept of these crates, given by their folders."""
    shutil.copyfile(f"{root}/crates.txt", f"{room}/crates.txt")
    shutil.copytree(f"{root}/crates", f"{room}/crates", ignore=shutil.ignore_patterns("out"))
    for name, folder in kept.items():
        if os.path.isdir(folder):
            linked(folder, f"{room}/kept/{name}")


def is_up_to_date(crate, made):
    """Whether a crate's library in a folder is as its sources are. Its stamp tells, where `rt check` built it; `rt ci` leaves none, and
    what it built is no older than the sources."""
    library = f"{made}/{crate.name}.rlib"
    if os.path.isfile(f"{made}/stamp"):
        return os.path.isdir(library) and RT.rtlib.text_of(f"{made}/stamp") == crate.stamp()
    sources = pathlib.Path(made).parents[1]
    times = [it.stat().st_mtime for part in RT.rtlib.PARTS for it in (sources / part).rglob("*") if it.is_file()]
    return os.path.isdir(library) and max(times, default=0) <= os.path.getmtime(library)


def take_libraries(root, crates):
    """Takes over the libraries below these crates, as they were built; returns whether all are there."""
    below = {it.name: it for crate in crates for it in crate.below()}
    if not all(is_up_to_date(it, f"{root}/crates/{name}/out/rlib") for name, it in below.items()):
        return False
    for name, it in below.items():
        shutil.copytree(f"{root}/crates/{name}/out/rlib/{name}.rlib", it.rlib)
    return True


def build(trial, given, jobs):
    """Builds a crate's library for the crates above it."""
    lacking = [it.name for it in trial.crate.below() if not given[it.name, "library"]]
    if lacking:
        say(f"{trial.crate.name} NOT BUILT: its library {lacking[0]} failed")
        return False
    is_well, said, used = trial.build(jobs)
    if not is_well:
        say(said[-3000:])
    say(f"{trial.crate.name}: {'built' if is_well else 'NOT BUILT'} ({used:.0f} CPU s)")
    return is_well


def tasks_of(trials, root, size, is_built):
    """Returns the tasks for the edits of these trials, and for the libraries below them."""
    wanted = [it.crate for it in trials if it.edits]
    used = {below.name for it in wanted for below in it.below()}
    has_libraries = is_built and take_libraries(root, wanted)
    tasks = {}
    for trial in trials:
        crate = trial.crate
        lines, needs = crate.count(rb"\n"), RT.need(crate)
        waits = [] if has_libraries else [(it.name, "library") for it in crate.below()]
        if crate.name in used and not has_libraries:
            tasks[crate.name, "library"] = waits, lines, needs, lambda given, jobs, it=trial: build(it, given, jobs)
            waits = [(crate.name, "library")]
        tasks |= tasks_of_edits(trial, waits, size)
    return tasks


def take_over(root, log):
    """Takes over into the file `tried` what a run said that it tried, or returns why it can't."""
    try:
        with open(log, encoding="utf-8", errors="replace") as it:
            text = noted(root, it.read())
    except OSError as error:
        return f"{log}: {error.strerror}"
    if not text:
        return f"{log} says of no crate which of its edits were tried"
    with open(f"{root}/{FILE}", "w", encoding="utf-8") as it:
        it.write(text)
    return None


def main():
    parser = argparse.ArgumentParser(prog="refused", description=__doc__.split("\n")[0])
    parser.add_argument("--size", type=int, default=100, help="how many edits at most in one check")
    parser.add_argument("--warm", action="store_true", help="begin over what rt check kept in out/, and over the libraries that it built")
    parser.add_argument("--built", action="store_true", help="take the libraries below as rt ci has just built them")
    parser.add_argument("--all", action="store_true", help="try every edit, whatever was tried before; so it is for a crate that is named")
    parser.add_argument("--of", action="append", metavar="IT", help="only the edits of this function, as the prover calls it, or of this source file")
    parser.add_argument("--note", metavar="LOG", help="try nothing, and take over into the file tried what a run said, as it stands in this file")
    parser.add_argument("--root", default=str(ROOT), help="the repository, if another than this one")
    parser.add_argument("names", nargs="*", metavar="NAME", help="the crates; all, if none is named")
    given = parser.parse_args()
    root = os.path.realpath(given.root)
    if given.note:
        why = take_over(root, given.note)
        return parser.error(why) if why else 0
    # (over libraries as they are built, no other crate is proved)
    names = given.names if given.built and given.names else os.listdir(f"{root}/crates")
    kept = {it: f"{root}/crates/{it}/out/incremental" for it in names if given.warm}
    with tempfile.TemporaryDirectory(prefix="refused-") as room:
        copy_of(root, room, kept)
        crates = sorted(RT.rtlib.crates_below(room), key=lambda it: len(it.below()))
        unknown = {*given.names} - {it.name for it in crates}
        if unknown:
            parser.error(f"crates.txt names no {' '.join(sorted(unknown))}")
        if given.names:
            for it in crates:
                if it.name not in given.names:
                    shutil.rmtree(f"{it.folder}/refused", ignore_errors=True)
        trials = [Trial(it, *edits_of(it), f"{room}/kept/{it.name}", say) for it in crates]
        tried = Tried(root)
        tried.choose(trials, given.all or given.names or given.of)
        if given.of:
            for it in trials:
                it.keep_of({*given.of})
        RT.in_lanes(tasks_of(trials, root, max(given.size, 1), given.built or given.warm))
        return 1 if report(trials, tried) else 0


if __name__ == "__main__":
    sys.exit(main())
