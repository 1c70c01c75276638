"""Runs tests with one allocation of their program refused: those of growths, and those of calls that take no memory. The built
program is run so too.

    python3 tools/allocations [--built] [NAME ..]

It runs crates/NAME/out/NAME_tests, the program of a crate's tests, one test a process. refuse.c, loaded before it, refuses the
program's allocation of one number, and says so. `rt test` proves, builds and runs that program first; with --built it is taken as
`rt ci` built it just before.

Growths: a test in a file growths.rt of a crate makes calls, and above it stands which of them grow, in their order, as in
`Growths: 3 of open, 1 made up for, 2 of chain.` It runs once for each growth. Where that is refused the test must fail, and say
'CALL answered 7': so each growth has an answer of its own. A call that makes up for it by a later one answers Ok, and the test
passes. In one more run nothing may be left to refuse. What a thread's start takes stands there too: `1 thread of CALL` must be
answered by 26. Where a thread grows while the next is started, no order is sure: `9 of CALL or its threads` is 7 or 26.

No memory: a test `CALLS_take_no_memory` in a file memory.rt makes one allocation in its last line. Its text there says which
number that has, as in 'allocation 4 is refused'. With that one refused it must fail there: had the calls made an allocation, it
would have another number.

With ample memory, as `rt ci` runs them, all these tests pass. The status is 0 where all is as it must be.

Without a NAME the built program is run with each allocation refused, as program.py says. And tools/allocations/calls.md must have each public
call, with the test that shows its growths, as calls.py says.
"""

import argparse
import os
import pathlib
import re
import resource
import shutil
import subprocess
import sys
import tempfile

HERE = pathlib.Path(__file__).resolve().parent
sys.path.insert(0, str(HERE))
sys.dont_write_bytecode = True

import calls
import program as built

ROOT = HERE.parents[1]
SAID = "an allocation was refused"
PASSED = "test result: ok"
GROWTHS = re.compile(r"/// Growths: ([^.]+)\.\n#\[test\]\nfn (\w+)\(")
GROWTH = re.compile(r"(?P<count>\d+) (?:made up for|(?P<thread>threads? )?of (?P<call>\w+)(?P<either> or its threads)?)")
TAKES_NONE = re.compile(r'(?s)\nfn (\w+_take_no_memory)\((?:(?!\n\}\n).)*"(allocation (\d+) is refused)"')


def library(room):
    """Builds refuse.c by the kit's compiler, and returns where."""
    kit = pathlib.Path(os.path.realpath(shutil.which("rt") or sys.exit("allocations: there is no rt on the path"))).parents[1]
    words = [kit / "toolchain/bin/clang", "-O2", "-shared", "-fPIC", "-nostdlib", "-fuse-ld=lld", "-o", f"{room}/refuse.so", HERE / "refuse.c"]
    subprocess.run(words, check=True)
    return f"{room}/refuse.so"


def crates_below(crate):
    """Returns a crate's folder, and those of all crates of the repository that it stands on."""
    uses = dict(it.split(":", 1) for it in (ROOT / "crates.txt").read_text(encoding="utf-8").splitlines() if ":" in it)
    found = [crate.name]
    for name in found:
        found += [it for it in uses.get(name, "").split() if it in uses and it not in found]
    return [crate.parent / it for it in found]


class Program:
    """The program of a crate's tests, or the crate's own."""

    def __init__(self, crate, refusing, suffix="_tests"):
        self.path, self.refusing = crate / "out" / f"{crate.name}{suffix}", refusing

    def is_built(self):
        """Whether it is there, and no older than the sources of its crate and of those below."""
        parts = [crate / it for crate in crates_below(self.path.parents[1]) for it in ("src", "specs", "proofs")]
        sources = [it.stat().st_mtime for part in parts for it in part.rglob("*") if it.is_file()]
        return self.path.is_file() and self.path.stat().st_mtime >= max(sources)

    def run(self, test, refused):
        """Runs a test with the allocation of this number refused. Returns whether it passed, whether there was that allocation, and
        the first line that the test said."""
        env = {"LD_PRELOAD": self.refusing, "REFUSED": str(refused)}
        how = {"stdin": subprocess.DEVNULL, "capture_output": True, "errors": "replace", "timeout": 60, "env": env}
        with tempfile.TemporaryDirectory() as room:
            try:
                ran = subprocess.run([self.path, test], cwd=room, **how)
            except subprocess.TimeoutExpired:
                return False, False, "no end within 60 seconds"
        said = [it for it in ran.stderr.splitlines() if it != SAID]
        is_refused = SAID in ran.stderr.splitlines()
        return ran.returncode == 0 and PASSED in ran.stdout, is_refused, said[0] if said else ""


def answers_of(row):
    """Returns what the test may say of a growth of this row, '' where it is made up for."""
    numbers = ["26"] if row["thread"] else ["7", "26"] if row["either"] else ["7"]
    return [f"{row['call']} answered {it}" for it in numbers] if row["call"] else [""]


def growths_of(table):
    """Returns the answers of each growth; or nothing where the table can't be read."""
    rows = [GROWTH.fullmatch(it) for it in re.sub(r"\s+(///)?\s*", " ", table).split(", ")]
    return [answers_of(it) for it in rows for _ in range(int(it["count"]))] if all(rows) else []


def module_of(crate, file):
    """Returns the path of a file's module in its crate."""
    return "::".join(file.relative_to(crate / "src").with_suffix("").parts)


def faults_of_growths(program, file, module):
    """Runs the tests of a file of growths, and returns what isn't as it must be."""
    text, faults = file.read_text(encoding="utf-8"), []
    tests = GROWTHS.findall(text)
    if not tests or len(tests) != len(re.findall(r"#\[test\]", text)):
        return ["NOTHING WAS REFUSED: each test must have a table of growths above it"]
    for table, test in tests:
        wanted = growths_of(table)
        for number, answers in enumerate([*wanted, [""]], 1):
            is_well, is_refused, said = program.run(f"{module}::{test}", number)
            is_last = number > len(wanted)
            if is_refused == is_last:
                faults.append(f"{test}: growth {number} was {'refused, and must not be there' if is_last else 'not there'}")
            elif said not in answers or is_well != (not said):
                want, ended = "' or '".join(answers), "passed" if is_well else "failed"
                faults.append(f"{test}: with growth {number} refused it must say '{want}', and {ended} with '{said}'")
        if not wanted:
            faults.append(f"{test}: NOTHING WAS REFUSED: its table says none")
    return faults


def faults_of_memory(program, file, module):
    """Runs the tests of a file of calls that take no memory, and returns what isn't as it must be."""
    text, faults = file.read_text(encoding="utf-8"), []
    found = TAKES_NONE.findall(text)
    if not found or len(found) != len(re.findall(r"#\[test\]", text)):
        return ["each test must be CALLS_take_no_memory, and say which allocation is refused"]
    for test, want, number in found:
        is_well, is_refused, said = program.run(f"{module}::{test}", int(number))
        if is_well or not is_refused or said != want:
            faults.append(f"{test} must fail where {want}, and {'passed' if is_well else 'failed'} with '{said}'")
    return faults


def faults_of(crate, files, refusing, is_built):
    """Returns, for each file of a crate's tests, what isn't as it must be."""
    program = Program(crate, refusing)
    if not is_built and subprocess.run(["rt", "test"], cwd=crate, stdin=subprocess.DEVNULL, stdout=sys.stderr).returncode:
        return {crate: ["its tests weren't proved, or failed"]}
    if not program.is_built():
        return {crate: ["the program of its tests is missing, or older than its sources"]}
    return {file: FAULTS[file.name](program, file, module_of(crate, file)) for file in files}


def faults_of_program(refusing, is_built):
    """Runs the built program with each allocation refused, says how many there were, and returns what isn't as it must be."""
    crate = ROOT / "crates/sci_sim"
    if not is_built and subprocess.run(["rt", "run", "--", "--version"], cwd=crate, stdin=subprocess.DEVNULL, stdout=sys.stderr).returncode:
        return ["the program wasn't proved, or not built"]
    program, faults, count = Program(crate, refusing, ""), [], 0
    if not program.is_built():
        return ["the program is missing, or older than its sources"]
    for row in built.RUNS:
        refused, of_row = built.faults_of(built.Scisim(program.path, refusing), row)
        count += refused
        faults += [f"{row[0]}: {it}" for it in of_row + ([] if refused else ["NOTHING WAS REFUSED"])]
    print(f"allocations: sci_sim: {count} growths of the program were refused")
    return faults


def faults_of_calls():
    """Returns what isn't as it must be in the table of public calls."""
    return calls.faults(ROOT)


# what is looked for in a file of tests, by the file's name
FAULTS = {"growths.rt": faults_of_growths, "memory.rt": faults_of_memory}


def crates_of(names, reader):
    """Returns the crates of tests that have such files, each with these; of these names, where any is given."""
    found = {crate: sorted(it for name in FAULTS for it in crate.glob(f"src/**/{name}")) for crate in sorted(ROOT.glob("crates/*_tests"))}
    unknown = {*names} - {crate.name for crate, files in found.items() if files}
    if unknown:
        reader.error(f"no growths.rt and no memory.rt in {' '.join(sorted(unknown))}")
    return {crate: files for crate, files in found.items() if files and (not names or crate.name in names)}


def main():
    reader = argparse.ArgumentParser()
    reader.add_argument("--built", action="store_true")
    reader.add_argument("names", nargs="*")
    given, faults = reader.parse_args(), {}
    # A failed assertion aborts, and would leave a core file.
    resource.setrlimit(resource.RLIMIT_CORE, (0, 0))
    with tempfile.TemporaryDirectory() as room:
        refusing = library(room)
        for crate, files in crates_of(given.names, reader).items():
            of_crate = faults_of(crate, files, refusing, given.built)
            faults |= of_crate
            for file, of_file in of_crate.items():
                for it in of_file or ["each growth was answered as it must be" if file.name == "growths.rt" else "no call took memory that takes none"]:
                    print(f"allocations: {file.relative_to(ROOT / 'crates')}: {it}", flush=True)
        others = {"tools/allocations/calls.md": faults_of_calls()} | ({} if given.names else {"sci_sim": faults_of_program(refusing, given.built)})
    for name, of_name in others.items():
        for it in of_name or ["all is as it must be"]:
            print(f"allocations: {name}: {it}", flush=True)
    if not faults:
        print("allocations: NOTHING WAS REFUSED: there is no growths.rt and no memory.rt")
    return 1 if any([*faults.values(), *others.values()]) or not faults else 0


if __name__ == "__main__":
    sys.exit(main())
