"""Each call of the program, and each refusal: an input that it refuses so, or why there is none."""

import pathlib
import re

from calls import CALLS, INPUTS, RACES, SCRIPTS, WORKS
from dumps import DUMP, LARGE_DUMP
from histories import HISTORY, LONG
from kinds import AT_LIMIT, FULL, WRITE
from kinds import Begins, Crowded, Drawn, Little, Traced, refused
from runs import COUNT
from scripts import UNENDED
from sizes import RING

DOCS = pathlib.Path(__file__).resolve().parents[2] / "docs/REFUSALS.md"
NUMBERS = range(1, 31)
READERS = [*SCRIPTS, *RACES]
FAULTY = "memory 1 1\nlode 0\n"
BEYOND = "memory 1 1\nlist 1\n"
WROTE = "node 0 wrote stamp 1\n"
# What is written of a script before a command of it that doesn't end.
RUNS = {"script": WROTE, "trace": Traced(WROTE), "log": Begins("memory 2 1\n"), "page": Drawn(WROTE), **dict.fromkeys(RACES, "")}
# The largest memory, and how much there is: enough for the program, and for little more.
VAST = "memory 1024 1024\nlist 0\n"
LITTLE = 5_000_000


def told(number, line, given):
    """An input that is refused so, at this line where one is told."""
    return given, 1, "", refused(f"{number} at line {line}" if line else f"{number}")


def answered(number, given, answers):
    """A talk in which a line is refused so."""
    return given, 0, f"{answers}refused {number}\n", ""


# Where a number comes from: of each call the input, the status, and both outputs.
GIVEN = {
    7: {
        **{name: told(7, None, Little(VAST, LITTLE)) for name in [*READERS, "followed"]},
        "talk": answered(7, Little(VAST, LITTLE), "ok\n"),
        **{name: told(7, None, Little(RING, LITTLE)) for name in WORKS},
        **{"dump": told(7, None, Little(LARGE_DUMP, LITTLE)), "history": told(7, None, Little(LONG, LITTLE))},
    },
    16: {
        **{name: told(16, 2, FAULTY) for name in READERS},
        "talk": answered(16, FAULTY, "ok\n"),
        "followed": told(16, 2, FAULTY),
    },
    17: {
        **{name: told(17, 2, BEYOND) for name in READERS},
        "talk": answered(17, BEYOND, "ok\n"),
        "followed": told(17, 2, "memory 1 1\nnode 1 line 0 Queue(none) Done\n"),
    },
    18: {
        **{name: (UNENDED, 1, text, refused("18 at line 7")) for name, text in RUNS.items()},
        "talk": answered(18, UNENDED, f"ok\nok\n{WROTE}" + "ok\n" * 4),
    },
    21: {"dump": told(21, 1, DUMP[1:]), "history": told(21, 1, HISTORY.replace("scihistory 1", "scihistory 2"))},
    22: {name: told(22, None, COUNT.replace("4", "65")) for name in WORKS},
    23: {name: told(23, None, AT_LIMIT + " ") for name in [*READERS, *WORKS, "dump"]},
    24: {name: (given, 1, FULL, WRITE) for name, given in INPUTS.items()},
    26: {name: told(26, None, Crowded(COUNT.replace("nodes = 4", "nodes = 64"))) for name in WORKS},
}
LIBRARY = "a call of the library alone answers so"
RANGED = "a size is refused where it is read: 17 in a script or a log, 21 in a dump or a history, 22 in settings"
WORDS = "a code that is no word's is refused as the text: 21 in a dump, 16 in a log"
# Why others come from nowhere.
NOWHERE = {
    **dict.fromkeys(range(1, 6), WORDS),
    6: RANGED,
    **dict.fromkeys([8, 9, 10, 12, 14, 15, 25], LIBRARY),
    11: "a script prints it as an answer, with status 0; no settings are known to lead to it",
    13: RANGED,
    19: "no settings are known to lead to it",
    20: "no settings are known to lead to it",
    **dict.fromkeys(range(27, 31), "the table in C answers so"),
}
OTHERS = {
    16: "its text is no script and no log",
    17: "its text is no script and no log",
    18: "no command is run to its end",
    21: "its text is no dump and no history",
    22: "its text is no settings",
    23: "its text may have any length",
    26: "it starts no thread",
}


def pair(name, number):
    """Of a call and a number: an input with what it comes to, or why there is none."""
    return GIVEN.get(number, {}).get(name) or NOWHERE.get(number) or OTHERS[number]


PAIRS = {(name, number): pair(name, number) for name in CALLS for number in NUMBERS}
CASES = [(CALLS[name].split(), *it) for (name, number), it in PAIRS.items() if not isinstance(it, str)]


def faults(cases):
    """Where another case is refused as this table says that none is, and where docs/REFUSALS.md has another program's numbers."""
    for arguments, given, *_, error in cases:
        found = re.match(r"scisim: refused (\d+)", error) if isinstance(error, str) else None
        names = [name for name, words in CALLS.items() if arguments and words.split()[0] == arguments[0]]
        if found and names and not any(name in GIVEN.get(int(found[1]), {}) for name in names):
            yield arguments, given, [f"it is refused {found[1]}, which the table of refusals says cannot be"]
    rows = re.findall(r"(?m)^\| (\d+) \| (.*)$", DOCS.read_text(encoding="utf-8").partition("| status |")[0])
    told = {int(number) for number, row in rows if "scisim" in row}
    yield ["refusals"], "", [] if told == set(GIVEN) else [f"docs/REFUSALS.md has {sorted(told)} of the program, the table {sorted(GIVEN)}"]
