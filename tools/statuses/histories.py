"""Which histories `check` calls legal, which rule others break, and which texts are no histories; and what `run --history` prints of workloads."""

import runs
from kinds import CLOSED, FOLDER, FULL, LIMIT, READ, UNREAD, USAGE, WRITE
from kinds import Begins, Crowded, Legal, Little, refused

HISTORY = (
    "scihistory 1 2 1\nline 0 0 0 0 0 0 0 0 0 0\nclosed 0 1 7 0 0 0 0 0 0 0\npassed 0 0 0 0 0 0 0 0 0 0\n"
    "wrote 0 1 7 0 0 0 0 0 0 0 over 0 0 0 0 0 0 0 0\nread 1 1 7 0 0 0 0 0 0 0\nend\n"
)
BROKEN = {
    "H1": HISTORY.replace("read 1 1", "read 1 2"),
    "H2": HISTORY.replace("passed 0 0 0", "passed 0 1 7"),
    "H3": HISTORY.replace("wrote 0 1 7 0 0 0 0 0 0 0 over 0 0 0 0 0 0 0 0\n", ""),
    "H4": HISTORY.replace("read 1 1 7 0 0 0 0 0 0 0", "wrote 1 1 7 0 0 0 0 0 0 0 over 0 0 0 0 0 0 0 0"),
    "H5": HISTORY.replace("read 1 1 7", "read 1 1 8"),
}
# More than any other input may have: 50,000 reads.
LONG = HISTORY.replace("end\n", "read 1 1 7 0 0 0 0 0 0 0\n" * 50_000 + "end\n")

FILES = {"history": HISTORY, "illegal": BROKEN["H5"], "long_history": LONG}

ZEROS = "0 0 0 0 0 0 0 0"


def counted(adds):
    """What one node's count keeps, by hand: it finds the line with nobody on its way to its first write, and is the only one in its list
    from there on, so that each later add is a write alone. Each write makes word 0 its stamp."""
    words = [f"{word} 0 0 0 0 0 0 0" for word in range(adds + 1)]
    found = f"passed 0 0 {ZEROS}\n" if adds else ""
    wrote = "".join(f"wrote 0 {stamp} {words[stamp]} over {words[stamp - 1]}\n" for stamp in range(1, adds + 1))
    return f"scihistory 1 1 1\nline 0 0 {ZEROS}\nclosed 0 {adds} {words[adds]}\n{found}{wrote}end\n"


TWICE = runs.ALONE.replace("adds = 3", "adds = 2")
# A stencil of no phase: one node writes its tile to line 0, and reads it again; line 1 is as it was.
TILE = 'work = "stencil"\nnodes = 1\nphases = 0\ncapacity = 2\ncells = [1, 2, 3, 4, 5, 6, 7]\n'
TILE_KEPT = (
    f"scihistory 1 1 2\nline 0 0 {ZEROS}\nclosed 0 1 1 1 2 3 4 5 6 7\npassed 0 0 {ZEROS}\n"
    f"wrote 0 1 1 1 2 3 4 5 6 7 over {ZEROS}\nread 0 1 1 1 2 3 4 5 6 7\nline 1 0 {ZEROS}\nclosed 1 0 {ZEROS}\nend\n"
)
# A ring of no items: two lines that nobody uses.
NO_ITEMS = f"scihistory 1 2 2\nline 0 0 {ZEROS}\nclosed 0 0 {ZEROS}\nline 1 0 {ZEROS}\nclosed 1 0 {ZEROS}\nend\n"

KEPT = [
    *((["run", "--history"], runs.ALONE.replace("adds = 3", f"adds = {adds}"), 0, counted(adds), "") for adds in (0, 1, 2, 3, 1000)),
    (["run", "--history", "alone"], "", 0, counted(3), ""),
    (["run", "--history"], TWICE.replace("dump = true\n", ""), 0, counted(2), ""),
    (["run", "--history"], TILE, 0, TILE_KEPT, ""),
    (["run", "--history"], 'work = "ring"\nlines = 1\ncapacity = 1\nitems = []\n', 0, NO_ITEMS, ""),
    (["run", "--history"], runs.COUNT, 0, Legal("scihistory 1 4 1\n"), ""),
    (["run", "--history", "count"], "", 0, Legal("scihistory 1 4 1\n"), ""),
    (["run", "--history", "./count"], CLOSED, 0, Legal("scihistory 1 4 1\n"), ""),
    (["run", "--history", "stencil"], "", 0, Legal("scihistory 1 3 6\n"), ""),
    (["run", "--history"], runs.STENCIL + "dump = true\n", 0, Legal("scihistory 1 3 6\n"), ""),
    (["run", "--history"], runs.STENCIL.replace("nodes = 3\ncapacity = 2", "nodes = 64\ncapacity = 1"), 0, Legal("scihistory 1 64 6\n"), ""),
    (["run", "--history", "ring"], "", 0, Legal("scihistory 1 2 3\n"), ""),
    (["run", "--history"], runs.ITEM + "capacity = 1\n", 0, Legal("scihistory 1 2 2\n"), ""),
    (["run", "--history"], "", 1, "", refused("22")),
    (["run", "--history", "history"], runs.COUNT, 1, "", refused("22")),
    (["run", "--history"], runs.COUNT.replace("nodes = 4", "nodes = 65"), 1, "", refused("22")),
    (["run", "--history"], runs.COUNT + "x = 1\n", 1, "", refused("22")),
    (["run", "--history", "long"], runs.COUNT, 1, "", refused("23")),
    (["run", "--history"], runs.COUNT.ljust(LIMIT), 0, Legal("scihistory 1 4 1\n"), ""),
    (["run", "--history"], runs.COUNT.ljust(LIMIT + 1), 1, "", refused("23")),
    (["run", "--history"], Crowded(runs.LONG.replace("250000", "1000000")), 1, "", refused("7")),
    (["run", "--history"], Crowded(runs.COUNT.replace("nodes = 4\nadds = 1000", "nodes = 64\nadds = 10")), 1, "", refused("26")),
    (["run", "--history", "missing"], runs.COUNT, 1, "", READ),
    (["run", "--history"], FOLDER, 1, "", READ),
    (["run", "--history"], CLOSED, 1, "", READ),
    (["run", "--history"], runs.COUNT, 1, CLOSED, WRITE),
    (["run", "--history", "stencil"], "", 1, FULL, WRITE),
    (["run", "--history", "ring"], "", 1, UNREAD, WRITE),
    (["run", "--history", "alone"], "", 0, counted(3), CLOSED),
    (["run", "--history", "--progress"], runs.LONG, 0, counted(250_000), runs.TOLD),
    (["run", "--history", "count", "count"], runs.COUNT, 2, "", USAGE),
    (["run", "--history", "--nonsense"], runs.COUNT, 2, "", USAGE),
]

CASES = [
    (["check"], HISTORY, 0, "legal\n", ""),
    (["check", "history"], "", 0, "legal\n", ""),
    (["check", "long_history"], "", 0, "legal\n", ""),
    (["check"], LONG, 0, "legal\n", ""),
    (["check"], Little(HISTORY), 0, "legal\n", ""),
    (["check"], Little(LONG), 1, "", refused("7")),
    (["check"], LONG.replace("7 0 0 0 0 0 0 0\nend", "7 0 0 0 0 0 0 1\nend"), 3, "line 0 breaks H5\n", ""),
    *((["check"], history, 3, f"line 0 breaks {rule}\n", "") for rule, history in BROKEN.items()),
    (["check"], HISTORY[:-1], 1, "", refused("21 at line 7")),
    (["check"], HISTORY + "\n", 1, "", refused("21 at line 8")),
    (["check"], HISTORY.replace("\n", "\r\n"), 1, "", refused("21 at line 1")),
    (["check"], HISTORY.replace("read 1", "read 2"), 1, "", refused("21 at line 6")),
    (["check"], "", 1, "", refused("21 at line 1")),
    (["check", "missing"], HISTORY, 1, "", READ),
    (["check"], FOLDER, 1, "", READ),
    (["check"], CLOSED, 1, "", READ),
    (["check"], HISTORY, 1, CLOSED, WRITE),
    (["check", "illegal"], "", 1, FULL, WRITE),
    (["check", "history"], "", 1, UNREAD, WRITE),
    (["check", "illegal"], "", 3, "line 0 breaks H5\n", CLOSED),
    (["check", "history", "history"], "", 2, "", USAGE),
    *KEPT,
]
