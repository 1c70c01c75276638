"""What `run` prints of a workload."""

from kinds import AT_LIMIT, CLOSED, FOLDER, FULL, LIMIT, READ, UNREAD, USAGE, WRITE
from kinds import Begins, Lawful, refused

COUNT = 'work = "count"\nnodes = 4\nadds = 1000\ncapacity = 1\n'
# Long enough for two lines on its way.
LONG = 'work = "count"\nnodes = 1\nadds = 250000\ncapacity = 1\n'


def told(count):
    """The lines of a run whose nodes have ended so many calls together."""
    return "".join(f"scisim: run: {calls} calls\n" for calls in range(100_000, count + 1, 100_000))


TOLD = told(250_000)
# One node counts, so the dump is always the same.
ALONE = 'work = "count"\nnodes = 1\nadds = 3\ncapacity = 1\ndump = true\n'
ALONE_COUNTED = (
    "count 3\nscidump 2 1 1\nline 0 0000000000000002 0 0 0 0 0 0 0 0 0\ntag 0 0 0000ffffffff0003 3 3 0 0 0 0 0 0 0\nend\n"
)
CELLS = [0] * 10 + [1] + [0] * 10
STENCIL = f'work = "stencil"\nnodes = 3\ncapacity = 2\nphases = 5\ncells = {CELLS}\n'
SPREAD = "cells 0 0 0 0 0 1 5 15 30 45 51 45 30 15 5 1 0 0 0 0 0\n"
ZEROS = 'work = "stencil"\nnodes = 1\ncapacity = 2\nphases = 0\ncells = [0, 0, 0, 0, 0, 0, 0]\n'
ITEMS = [3 * place for place in range(100)]
RING = f'work = "ring"\nlines = 2\ncapacity = 1\nitems = {ITEMS}\n'
PASSED = "items " + " ".join(map(str, ITEMS)) + "\n"
LONG_RING = f'work = "ring"\nlines = 1023\ncapacity = 1024\nitems = {40_000 * [0]}\n'

# One node takes seven cells a phase on, from line 0 to line 1. Where it may name one line, it has left line 0 to memory.
TILE = 'work = "stencil"\nnodes = 1\nphases = 1\ncells = [1, 1, 1, 1, 1, 1, 1]\ndump = true\n'
TILE_LEFT = (
    "cells 2 3 3 3 3 3 2\n"
    "scidump 2 1 2\n"
    "line 0 00000000ffff0000 1 1 1 1 1 1 1 1 1\n"
    "line 1 0000000000000002 0 0 0 0 0 0 0 0 0\n"
    "tag 1 0 0000ffffffff0003 1 2 2 3 3 3 3 3 2\n"
    "end\n"
)
TILE_KEPT = (
    "cells 2 3 3 3 3 3 2\n"
    "scidump 2 1 2\n"
    "line 0 0000000000000002 0 0 0 0 0 0 0 0 0\n"
    "tag 0 0 0000ffffffff0003 1 1 1 1 1 1 1 1 1\n"
    "line 1 0000000000000002 0 0 0 0 0 0 0 0 0\n"
    "tag 1 0 0000ffffffff0003 1 2 2 3 3 3 3 3 2\n"
    "end\n"
)

# One node passes an item to another, which has it at the head of line 0's list, or has left that list for the line behind.
ITEM = 'work = "ring"\nlines = 1\nitems = [7]\ndump = true\n'
ITEM_LEFT = (
    "items 7\n"
    "scidump 2 2 2\n"
    "line 0 0000000000000002 0 0 0 0 0 0 0 0 0\n"
    "tag 0 0 0000ffffffff0003 1 1 7 0 0 0 0 0 0\n"
    "line 1 0000000000010002 0 0 0 0 0 0 0 0 0\n"
    "tag 1 1 0000ffffffff0003 1 1 0 0 0 0 0 0 0\n"
    "end\n"
)
ITEM_KEPT = (
    "items 7\n"
    "scidump 2 2 2\n"
    "line 0 0000000000010002 0 0 0 0 0 0 0 0 0\n"
    "tag 0 0 00000001ffff0007 1 1 7 0 0 0 0 0 0\n"
    "tag 0 1 0000ffff00000003 1 1 7 0 0 0 0 0 0\n"
    "line 1 0000000000010002 0 0 0 0 0 0 0 0 0\n"
    "tag 1 1 0000ffffffff0003 1 1 0 0 0 0 0 0 0\n"
    "end\n"
)

FILES = {
    "count": COUNT,
    "long_count": LONG,
    "stencil": STENCIL,
    "ring": RING,
    "alone": ALONE,
}

CASES = [
    (["run"], COUNT, 0, "count 4000\n", ""),
    (["run", "count"], "", 0, "count 4000\n", ""),
    (["run", "count"], STENCIL, 0, "count 4000\n", ""),
    (["run", "./count"], CLOSED, 0, "count 4000\n", ""),
    (["run"], STENCIL, 0, SPREAD, ""),
    (["run", "stencil"], "", 0, SPREAD, ""),
    (["run"], RING, 0, PASSED, ""),
    (["run", "ring"], "", 0, PASSED, ""),
    (["run"], ALONE, 0, ALONE_COUNTED, ""),
    (["run"], STENCIL + "dump = true\n", 0, Begins(SPREAD + "scidump 2 3 6\nline 0 "), ""),
    (["run"], STENCIL.replace("nodes = 3", "nodes = 1") + "dump = true\n", 0, Begins(SPREAD + "scidump 2 1 6\nline 0 "), ""),
    (["run"], STENCIL.replace("nodes = 3", "nodes = 2") + "dump = true\n", 0, Begins(SPREAD + "scidump 2 2 6\nline 0 "), ""),
    (["run"], RING + "dump = true\n", 0, Begins(PASSED + "scidump 2 2 3\nline 0 "), ""),
    (["run"], "", 1, "", refused("22")),
    (["run", "row"], COUNT, 1, "", refused("22")),
    (["run"], "work =", 1, "", refused("22")),
    (["run"], COUNT.replace("nodes = 4", "nodes = 65"), 1, "", refused("22")),
    (["run"], COUNT.replace("nodes = 4", "nodes = 1.5"), 1, "", refused("22")),
    (["run"], COUNT.replace("adds = 1000\n", ""), 1, "", refused("22")),
    (["run"], COUNT + "x = 1\n", 1, "", refused("22")),
    (["run"], STENCIL.replace("[0, ", "["), 1, "", refused("22")),
    (["run", "limit"], "", 1, "", refused("22")),
    (["run", "long"], COUNT, 1, "", refused("23")),
    (["run"], COUNT.ljust(LIMIT), 0, "count 4000\n", ""),
    (["run"], COUNT.ljust(LIMIT + 1), 1, "", refused("23")),
    (["run"], COUNT.ljust(LIMIT, "\n"), 0, "count 4000\n", ""),
    (["run"], COUNT.ljust(LIMIT + 1, "\n"), 1, "", refused("23")),
    (["run", "missing"], COUNT, 1, "", READ),
    (["run", "folder"], COUNT, 1, "", READ),
    (["run", b"\xff"], COUNT, 1, "", READ),
    (["run"], CLOSED, 1, "", READ),
    (["run"], FOLDER, 1, "", READ),
    (["run"], COUNT, 1, CLOSED, WRITE),
    (["run", "stencil"], "", 1, FULL, WRITE),
    (["run", "ring"], "", 1, UNREAD, WRITE),
    (["run"], "", 1, FULL, refused("22")),
    (["run", "count"], "", 0, "count 4000\n", CLOSED),
    (["run", "count", "count"], COUNT, 2, "", USAGE),
    (["run", "--nonsense"], COUNT, 2, "", USAGE),
    (["run", "--progress"], LONG, 0, "count 250000\n", TOLD),
    (["run", "--progress", "long_count"], "", 0, "count 250000\n", TOLD),
    (["run", "long_count", "--progress"], "", 0, "count 250000\n", TOLD),
    (["run"], LONG, 0, "count 250000\n", ""),
    (["run", "--progress", "count"], "", 0, "count 4000\n", ""),
    # only the calls of all four nodes are so many, and no more
    (["run", "--progress"], COUNT.replace("1000", "25000"), 0, "count 100000\n", told(100_000)),
    (["run", "--progress"], COUNT.replace("1000", "24999"), 0, "count 99996\n", ""),
    (["run", "--progress"], LONG.replace("250000", "99999"), 0, "count 99999\n", ""),
    (["run", "--progress"], LONG.replace("250000", "1000000"), 0, "count 1000000\n", told(1_000_000)),
    # in each phase a tile is read and written
    (["run", "--progress"], ZEROS.replace("phases = 0", "phases = 60000"), 0, f"cells{7 * ' 0'}\n", told(100_000)),
    # an item is written, read and counted
    (["run", "--progress"], LONG_RING, 0, f"items{40_000 * ' 0'}\n", Begins(told(100_000))),
    (["run", "--progress"], LONG, 0, "count 250000\n", CLOSED),
    (["run", "--progress"], LONG, 1, FULL, TOLD + WRITE),
    (["run", "--progress"], "", 1, "", refused("22")),
    (["run", "--progress", "--progress"], COUNT, 2, "", USAGE),
    (["run", "--help"], "", 0, Begins("Runs a workload in threads\n\nUsage: scisim run [OPTIONS] [FILE]\n"), ""),
    (["run"], COUNT.replace("nodes = 4\nadds = 1000", "nodes = 64\nadds = 10"), 0, "count 640\n", ""),
    (["run"], STENCIL.replace("nodes = 3", "nodes = 1"), 0, SPREAD, ""),
    (["run"], STENCIL.replace("nodes = 3", "nodes = 2"), 0, SPREAD, ""),
    (["run"], STENCIL.replace("nodes = 3", "nodes = 64"), 0, SPREAD, ""),
    (["run"], STENCIL.replace("nodes = 3\ncapacity = 2", "nodes = 64\ncapacity = 1"), 0, SPREAD, ""),
    (["run"], STENCIL.replace("phases = 5", "phases = 0"), 0, f"cells {' '.join(map(str, CELLS))}\n", ""),
    (["run"], RING.replace(str(ITEMS), "[]"), 0, "items\n", ""),
    (["run"], RING.replace(str(ITEMS), "[0, 9223372036854775807]"), 0, "items 0 9223372036854775807\n", ""),
    (["run"], TILE + "capacity = 1\n", 0, TILE_LEFT, ""),
    (["run"], TILE + "capacity = 2\n", 0, TILE_KEPT, ""),
    (["run"], ITEM + "capacity = 1\n", 0, ITEM_LEFT, ""),
    (["run"], ITEM + "capacity = 2\n", 0, ITEM_KEPT, ""),
    (["run"], COUNT + "dump = true\n", 0, Lawful("count 4000\n"), ""),
    (["run"], COUNT.replace("nodes = 4\nadds = 1000", "nodes = 64\nadds = 10") + "dump = true\n", 0, Lawful("count 640\n"), ""),
    (["run"], STENCIL + "dump = true\n", 0, Lawful(SPREAD), ""),
    (["run"], RING + "dump = true\n", 0, Lawful(PASSED), ""),
]
