"""Tests tools/allocations on programs that answer as is written here, and on tables of calls: what it tells of each."""

import contextlib
import importlib.util
import io
import pathlib
import sys
import tempfile

TOOL = pathlib.Path(__file__).resolve().parent
sys.dont_write_bytecode = True

spec = importlib.util.spec_from_file_location("allocations", TOOL / "__main__.py")
tool = importlib.util.module_from_spec(spec)
spec.loader.exec_module(tool)

GROWTHS = """/// Growths: 1 of open, 1 made up for, 1 thread of ring,
/// 1 of count or its threads.
#[test]
fn growths() {
}
"""

MEMORY = """
#[test]
fn steps_take_no_memory() {
    "allocation 2 is refused"
}
"""

# what a program says where no growth is refused, and behind the last: it passes, and nothing was refused
WELL = (True, False, "")


def failed(said):
    return False, True, said


RIGHT = [failed("open answered 7"), (True, True, ""), failed("ring answered 26"), failed("count answered 7"), WELL]

# what is tried, a file's name and text, what its program does with each allocation refused, and whether all is as it must be
CASES = [
    ("each growth answers as its table says", "growths.rt", GROWTHS, RIGHT, True),
    ("26 where a thread may grow too", "growths.rt", GROWTHS, [*RIGHT[:3], failed("count answered 26"), WELL], True),
    ("a growth that is answered by Ok", "growths.rt", GROWTHS, [(True, True, ""), *RIGHT[1:]], False),
    ("a growth that is answered by another number", "growths.rt", GROWTHS, [failed("open answered 9"), *RIGHT[1:]], False),
    ("a growth that another call answers", "growths.rt", GROWTHS, [failed("count answered 7"), *RIGHT[1:]], False),
    ("a growth that is made up for, and fails", "growths.rt", GROWTHS, [RIGHT[0], failed("open answered 7"), *RIGHT[2:]], False),
    ("a thread that is answered by 7", "growths.rt", GROWTHS, [*RIGHT[:2], failed("ring answered 7"), *RIGHT[3:]], False),
    ("a growth that passes, and says 7", "growths.rt", GROWTHS, [(True, True, "open answered 7"), *RIGHT[1:]], False),
    ("a growth that isn't there", "growths.rt", GROWTHS, [*RIGHT[:3], WELL, WELL], False),
    ("a growth more than in the table", "growths.rt", GROWTHS, [*RIGHT[:4], (True, True, "")], False),
    ("a test that fails with ample memory", "growths.rt", GROWTHS, [*RIGHT[:4], (False, False, "no")], False),
    ("a test without a table", "growths.rt", GROWTHS + "#[test]\nfn more() {\n}\n", RIGHT, False),
    ("no test", "growths.rt", "", [], False),
    ("a table that can't be read", "growths.rt", GROWTHS.replace("1 of open", "one of open"), [WELL], False),
    ("the last allocation is the one refused", "memory.rt", MEMORY, [None, failed("allocation 2 is refused")], True),
    ("an allocation before the last", "memory.rt", MEMORY, [None, failed("assertion failed")], False),
    ("fewer allocations", "memory.rt", MEMORY, [None, WELL], False),
    ("a test that refuses nothing", "memory.rt", MEMORY + "#[test]\nfn more() {\n}\n", [None, failed("allocation 2 is refused")], False),
]


# a crate of two calls that are handed on, of which one takes memory, of two that aren't, and of one in a public module; a crate of its
# tests, and its table
CRATE = {
    "crates/one/src/lib.rt": "mod calls;\npub mod old;\npub use calls::{Line, read};\n",
    "crates/one/src/old.rt": "fn inner(word: u64) {\n}\n\npub fn read(word: u64) -> u64 {\n}\n",
    "crates/one/src/calls.rt": "pub fn read(word: u64) -> u64 {\n}\n\npub fn inner(alloc: Global) {\n}\n\nimpl<K: Keeps> Line<K> {\n"
    "    pub fn open(\n        alloc: Global,\n    ) -> Line {\n    }\n\n    fn own(alloc: Global) {\n    }\n}\n",
    "crates/one_tests/src/lib.rt": "",
    "crates/one_tests/src/lines/growths.rt": "/// Growths: 2 of open.\n#[test]\nfn growths() {\n}\n",
    "crates/one_tests/src/lines/memory.rt": "#[test]\nfn reads() {\n    read(0);\n}\n",
    "tools/allocations/calls.md": "## one\n\n| calls | memory | waits | seen in |\n|---|---|---|---|\n"
    "| `old::{read}` | none | no | its signature |\n"
    "| `read` | none | no | its signature |\n| `Line::{open}` | yes | no | `one_tests::lines::growths::growths` |\n",
}
OPEN, READ = CRATE["tools/allocations/calls.md"].splitlines()[-1], CRATE["tools/allocations/calls.md"].splitlines()[-2]

# what is tried, the file of it that is changed, the old text and the new, and what is told
TABLES = [
    ("the table as it is", "tools/allocations/calls.md", "", "", None),
    ("a missing row", "tools/allocations/calls.md", READ + "\n", "", "read stands in no row"),
    ("a missing row of a call with an allocator", "tools/allocations/calls.md", OPEN + "\n", "", "Line::open stands in no row"),
    ("a missing row of a public module's call", "tools/allocations/calls.md", "| `old::{read}` | none | no | its signature |\n", "", "old::read stands in no row"),
    ("a row of a public module's own", "tools/allocations/calls.md", "`old::{read}`", "`old::{read, inner}`", "there is no public call old::inner"),
    ("a stale row", "tools/allocations/calls.md", "`read`", "`read`, `write`", "there is no public call write"),
    ("a row of a call that isn't handed on", "tools/allocations/calls.md", "`read`", "`read`, `inner`", "there is no public call inner"),
    ("two rows of a call", "tools/allocations/calls.md", READ, READ + "\n" + READ, "read stands in 2 rows"),
    ("a test that isn't there", "tools/allocations/calls.md", "growths::growths", "growths::more", "there is no test one_tests::lines::growths::more"),
    ("a call without growths", "crates/one_tests/src/lines/growths.rt", "of open", "of close", "Line::open: no test that its row names has growths of it"),
    ("a row that can't be read", "tools/allocations/calls.md", OPEN, "| `Line::open` | none | no | |", "Line::open stands in no row"),
    ("an allocator, and no test that it isn't used", "tools/allocations/calls.md", OPEN, "| `Line::open` | none | no | its signature |", "Line::open: no test shows"),
    ("a call within one that has no growths", "tools/allocations/calls.md", OPEN, "| `Line::open` | yes | no | in `read` |", "the growths of read are shown by no test"),
    ("a call that may wait, and is said not to", "crates/one/src/calls.rt", "fn read(", "fn read<R: Wait>(", "read: 'none' and 'no'"),
    ("a new call", "crates/one/src/calls.rt", "    fn own(", "    pub fn own(", "Line::own stands in no row"),
    ("a new unsafe call", "crates/one/src/calls.rt", "    fn own(", "    pub unsafe fn own(", "Line::own stands in no row"),
    ("a call that grows, and is said to take none", "tools/allocations/calls.md", "| yes | no | `", "| none | no | `", "Line::open: a test has growths of it"),
    ("a test that doesn't name the call", "tools/allocations/calls.md", OPEN, "| `Line::open` | none | no | `one_tests::lines::memory::reads` |", "Line::open: no test shows"),
    ("all names handed on", "crates/one/src/lib.rt", "{Line, read}", "*", "its lib.rt has 'pub use calls::*;'"),
    ("a name handed on within another", "crates/one/src/lib.rt", "{Line, read}", "{Line, read, more::{close}}", "its lib.rt has 'pub use"),
    ("another name handed on", "crates/one/src/lib.rt", "{Line, read}", "{Line, read as write}", "its lib.rt has 'pub use"),
    ("a call in lib.rt", "crates/one/src/lib.rt", "mod calls;", "mod calls;\npub fn close() {\n}", "its lib.rt has 'pub fn close'"),
    ("a new call that takes none", "crates/one/src/calls.rt", "pub fn inner(", "pub trait Line {\n    fn made();\n}\n\npub fn inner(", "Line::made stands"),
]


def told_of(name, old, new):
    """What the tool tells of the crate with one change."""
    with tempfile.TemporaryDirectory(prefix="allocations-test-") as folder:
        for path, text in CRATE.items():
            file = pathlib.Path(folder, path)
            file.parent.mkdir(parents=True, exist_ok=True)
            file.write_text(text.replace(old, new, 1) if path == name and old else text, encoding="utf-8")
        return tool.calls.faults(pathlib.Path(folder))


def is_told(name, old, new, wanted):
    """Whether the tool tells what it must, and nothing of the crate as it is."""
    told = told_of(name, old, new)
    return any(wanted in it for it in told) if wanted else not told


# what the built program does with each allocation refused, behind what it does with ample memory, and whether all is as it must be
WHOLE = (0, b"one\ntwo\n", b"", False)
LAST = WHOLE


def seven(said):
    return 1, said, b"scisim: refused 7\n", True


MET = (*WHOLE[:3], True)
ENDS = [
    ("each growth answers 7", [seven(b""), seven(b"one\n"), MET, LAST], True),
    ("a growth that is not made up for", [seven(b""), seven(b"one\n"), seven(b"one\n"), LAST], False),
    ("two growths that are made up for", [seven(b""), MET, MET, LAST], False),
    ("all is printed, and 7 told", [MET, seven(b"one\ntwo\n"), LAST], False),
    ("half a line is printed", [MET, seven(b"on"), LAST], False),
    ("another text is printed", [MET, seven(b"two\n"), LAST], False),
    ("another refusal", [MET, (1, b"", b"scisim: refused 16 at line 1\n", True), LAST], False),
    ("another status", [MET, (3, b"", b"scisim: refused 7\n", True), LAST], False),
    ("a growth that is answered by a part", [MET, (0, b"one\n", b"", True), LAST], False),
    ("it fails with ample memory behind the last", [MET, (1, b"", b"scisim: refused 7\n", False)], False),
]


class Ending:
    """A program that ends as is written here."""

    def __init__(self, ends):
        self.ends = [WHOLE, *ends]

    def run(self, command, text, refused):
        return self.ends[refused]


def ends_well(ends):
    """Whether the tool finds nothing wrong with a program."""
    return not tool.built.faults_of(Ending(ends), ("script", "", 1, tool.built.REFUSED, tool.built.lines))[1]


class Stub:
    """A program whose one test does with the first allocation refused what the first answer says, and so on."""

    def __init__(self, answers):
        self.answers = answers

    def run(self, test, refused):
        return self.answers[refused - 1]


def is_well(name, text, answers):
    """Whether the tool finds nothing wrong with a file of tests."""
    with tempfile.TemporaryDirectory(prefix="allocations-test-") as folder:
        file = pathlib.Path(folder, name)
        file.write_text(text, encoding="utf-8")
        return not tool.FAULTS[name](Stub(answers), file, "module")


def status_of(faults, of_program=(), of_calls=()):
    """The status of the tool where these are the faults of the crates of this repository, one after another, of the program and of
    the table of calls."""
    left = list(faults)
    tool.faults_of_program, tool.faults_of_calls = lambda refusing, is_built: of_program, lambda: of_calls
    tool.library = lambda room: ""
    tool.crates_of = lambda names, reader: {tool.ROOT / "crates" / str(number): [] for number in range(len(faults))}
    tool.faults_of = lambda crate, files, refusing, is_built: {crate: left.pop(0)}
    sys.argv[1:] = []
    with contextlib.redirect_stdout(io.StringIO()):
        return tool.main()


def main():
    wrong = [what for what, name, text, answers, wanted in CASES if is_well(name, text, answers) != wanted]
    wrong += [what for what, *change, wanted in TABLES if not is_told(*change, wanted)]
    wrong += [what for what, ends, wanted in ENDS if ends_well(ends) != wanted]
    statuses = [([[], []], 0), ([["a fault"], []], 1), ([[], ["a fault"]], 1), ([], 1)]
    wrong += [f"status {wanted} of {faults}" for faults, wanted in statuses if status_of(faults) != wanted]
    wrong += [f"status 0 of {others}" for others in ((["a fault"], []), ([], ["a fault"])) if not status_of([[]], *others)]
    for it in wrong:
        print(f"the test of tools/allocations: {it}: told wrongly")
    if not wrong:
        print(f"the test of tools/allocations: each of {len(CASES) + len(ENDS)} programs and {len(TABLES)} tables was told for what it is")
    return 1 if wrong else 0


if __name__ == "__main__":
    sys.exit(main())
