"""Settings that `run` takes, and settings that it refuses. Of each case the settings are made of entries, a key and a value a line."""

from kinds import refused

STENCIL = {"work": '"stencil"', "nodes": "3", "capacity": "2", "phases": "5", "cells": "[0, 0, 0, 1, 0, 0, 0]", "dump": "false"}
RING = {"work": '"ring"', "lines": "2", "capacity": "1", "items": "[0, 3, 6]", "dump": "false"}
COUNT = {"work": '"count"', "nodes": "4", "adds": "10", "capacity": "1", "dump": "false"}
# What each of them gives.
GIVEN = [(STENCIL, "cells 14 30 45 51 45 30 14\n"), (RING, "items 0 3 6\n"), (COUNT, "count 40\n")]
REFUSED = (1, "", refused("22"))


def text_of(entries, **changed):
    """The settings, with these values in place of their own; a key without a value is left out."""
    return "".join(f"{key} = {value}\n" for key, value in {**entries, **changed}.items() if value is not None)


def zeros(count):
    return f"[{', '.join(['0'] * count)}]"


def run(settings, text):
    return ["run"], settings, 0, text, ""


def no_run(settings):
    return ["run"], settings, *REFUSED


# The settings of each work with one value at a limit, and what they give; and with one beyond a limit.
TAKEN = [
    run(text_of(STENCIL, nodes="1"), GIVEN[0][1]),
    run(text_of(STENCIL, nodes="64"), GIVEN[0][1]),
    run(text_of(STENCIL, capacity="1"), GIVEN[0][1]),
    run(text_of(STENCIL, capacity="1024"), GIVEN[0][1]),
    run(text_of(STENCIL, phases="0"), "cells 0 0 0 1 0 0 0\n"),
    run(text_of(STENCIL, phases="1000000", nodes="1", cells=zeros(7)), "cells" + " 0" * 7 + "\n"),
    run(text_of(STENCIL, cells=zeros(3584), phases="1"), "cells" + " 0" * 3584 + "\n"),
    run(text_of(STENCIL, nodes="64", capacity="1024", cells=zeros(3584), phases="1"), "cells" + " 0" * 3584 + "\n"),
    run(text_of(RING, lines="1"), GIVEN[1][1]),
    run(text_of(RING, lines="1023"), GIVEN[1][1]),
    run(text_of(RING, capacity="1024"), GIVEN[1][1]),
    run(text_of(RING, items="[]"), "items\n"),
    run(text_of(RING, items="[9223372036854775807]"), "items 9223372036854775807\n"),
    run(text_of(RING, items=zeros(100_000)), "items" + " 0" * 100_000 + "\n"),
    run(text_of(COUNT, nodes="1"), "count 10\n"),
    run(text_of(COUNT, nodes="64"), "count 640\n"),
    run(text_of(COUNT, adds="0"), "count 0\n"),
    run(text_of(COUNT, adds="1000000", nodes="1"), "count 1000000\n"),
    run(text_of(COUNT, capacity="1024"), GIVEN[2][1]),
]
BEYOND = [
    *((STENCIL, "nodes", it) for it in ("0", "65")),
    *((STENCIL, "capacity", it) for it in ("0", "1025")),
    *((STENCIL, "phases", it) for it in ("-1", "1000001")),
    *((STENCIL, "cells", zeros(it)) for it in (0, 6, 8, 20, 3585, 3591)),
    *((RING, "lines", it) for it in ("0", "1024")),
    *((RING, "capacity", it) for it in ("0", "1025")),
    (RING, "items", "[-1]"),
    (RING, "items", zeros(100_001)),
    *((COUNT, "nodes", it) for it in ("0", "65")),
    *((COUNT, "adds", it) for it in ("-1", "1000001")),
    *((COUNT, "capacity", it) for it in ("0", "1025")),
    *((COUNT, "dump", it) for it in ("0", "1")),
]

# Values that no key may have.
WRONG = [
    "1.0",
    "1e0",
    "inf",
    '"1"',
    '""',
    "-1",
    "9223372036854775808",
    "{}",
    "1979-05-27",
    "[0, 0, 0, -1, 0, 0, 0]",
    "[0, 0, 0, 1.0, 0, 0, 0]",
    '[0, 0, 0, "1", 0, 0, 0]',
    "[0, 0, 0, true, 0, 0, 0]",
    "[0, 0, 0, [0], 0, 0, 0]",
    "[0, 0, 0, 9223372036854775808, 0, 0, 0]",
    "[0, 0, 0, 0, 0, 0, 0",
    "",
]

# Names of no work, or of another than the keys are for.
NAMES = ['"counts"', '"Count"', '" count"', '"script"', "true", "[]", '"stencil"', '"ring"', '"count"']

# What makes settings wrong that stands behind them: unknown keys, keys of another work, keys given twice, and no TOML.
BEHIND = [
    (STENCIL, "more = 1\n"),
    (STENCIL, "lines = 2\n"),
    (STENCIL, "items = []\n"),
    (STENCIL, "adds = 1\n"),
    (STENCIL, "cells = [0, 0, 0, 0, 0, 0, 0]\n"),
    (STENCIL, "dump = true\n"),
    (RING, "nodes = 2\n"),
    (RING, "cells = [0, 0, 0, 0, 0, 0, 0]\n"),
    (RING, "Lines = 2\n"),
    (RING, "lines = 2\n"),
    (COUNT, "phases = 1\n"),
    (COUNT, "lines = 1\n"),
    (COUNT, '"nodes " = 4\n'),
    (COUNT, "nodes = 4\n"),
    (COUNT, "nodes.more = 4\n"),
    (COUNT, "[more]\n"),
    (COUNT, "[[more]]\n"),
    (COUNT, "more\n"),
    (COUNT, "end\n"),
    (COUNT, b"# \xff\n"),
    (COUNT, "\0"),
]

# Texts that are no settings from the beginning.
NONE = [
    "",
    "\n",
    " ",
    "# work\n",
    "work",
    "work =",
    'work = "count"',
    b'work = "count\xff"',
    "{}",
    '[work]\nwork = "count"\nnodes = 4\nadds = 1000\ncapacity = 1\n',
    '{ "work": "count", "nodes": 4, "adds": 1000, "capacity": 1 }',
    "memory 3 1\nlist 0\n",
    b"\xff",
]

# Ways to write the same settings.
SPELLINGS = [
    'work = "count"\nnodes = 4\nadds = 1000\ncapacity = 1\n',
    'capacity = 1\nadds = 1000\nnodes = 4\nwork = "count"',
    "work = 'count'\r\nnodes = 0x4\r\nadds = 1_000\r\ncapacity = 0b1\r\n",
    "# additions\n\n  \"work\" = \"count\" # of each node\nnodes=4\n\tadds = +1000\n'capacity' = 1\ndump = false\n",
    '\ufeffwork = "\\u0063ount"\nnodes = 4\nadds = 0o1750\ncapacity = 1\n',
    'work = """count"""\nnodes = 4\nadds = 1000\ncapacity = 1\n',
]


def wrong_values():
    """Each key of each work with each value that it may not have."""
    for entries, _ in GIVEN:
        for key, value in entries.items():
            wrong = WRONG + NAMES if key == "work" else WRONG if key == "dump" else [*WRONG, "true"]
            yield from (no_run(text_of(entries, **{key: it})) for it in wrong if it != value)


def behind(entries, more):
    settings = text_of(entries)
    return settings.encode() + more if isinstance(more, bytes) else settings + more


CASES = [
    *(run(text_of(entries), text) for entries, text in GIVEN),
    # without the key `dump`, no dump is wanted; without any other there are no settings
    *(run(text_of(entries, dump=None), text) for entries, text in GIVEN),
    *(no_run(text_of(entries, **{key: None})) for entries, _ in GIVEN for key in entries if key != "dump"),
    *TAKEN,
    *(no_run(text_of(entries, **{key: value})) for entries, key, value in BEYOND),
    *wrong_values(),
    *(no_run(behind(entries, more)) for entries, more in BEHIND),
    *(no_run(settings) for settings in NONE),
    *(run(settings, "count 4000\n") for settings in SPELLINGS),
]
