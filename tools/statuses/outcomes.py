"""What `outcomes` lists of the calls that a script leaves open, and when it writes a page of their states."""

from kinds import AT_LIMIT, CLOSED, FOLDER, FULL, READ, UNREAD, USAGE, WRITE
from kinds import Begins, Broken, Filled, Little, refused

LOAD = "memory 1 1\nload 0 0 0\n"
LOADED = "states 5\noutcomes 1\n\nnode 0 read 0 stamp 0\nline 0 FRESH 0: 0 ONLY_FRESH\n" + "turn 0\n" * 4
MANY = "scisim: too many states\n"
# A node names one line: before it loads the other, it is to leave the first.
VICTIM = "memory 1 2\ncapacity 1\nload 0 0 0\ndone 0\nload 0 1 3\n"
STORE_AND_LOADS = "memory 3 1\nstore 0 0 0 5\nload 1 0 0\nload 2 0 0\n"
LOADS_OF_FIVE, LOADS_OF_SIX = (f"memory {count} 1\n" + "".join(f"load {node} 0 0\n" for node in range(count)) for count in (5, 6))
SHARERS = "memory 3 1\n" + "".join(f"load {node} 0 0\ndone {node}\n" for node in range(3))


# Six loads have 488,518 states: without --most it is the 100,001st that is one too many, before 80,000 are visited.
VISITED = "".join(f"scisim: outcomes: {count} states\n" for count in (20000, 40000, 60000))


PAGE = "<!DOCTYPE html>\n<html lang=\"en\">\n"

FILES = {"race": LOAD, "-race": LOAD}

CASES = [
    (["outcomes"], LOAD, 0, LOADED, ""),
    (["outcomes", "race"], "", 0, LOADED, ""),
    (["outcomes", "--", "-race"], "", 0, LOADED, ""),
    (["outcomes", "--most", "5"], LOAD, 0, LOADED, ""),
    (["outcomes", "--most=5", "race"], "", 0, LOADED, ""),
    (["outcomes", "--most", "4"], LOAD, 1, "", MANY),
    (["outcomes", "--most", "0"], LOAD, 1, "", MANY),
    (["outcomes", "--most", "4294967295"], LOAD, 0, LOADED, ""),
    (["outcomes", "--most", "4294967296"], LOAD, 2, "", USAGE),
    (["outcomes", "--most", "x"], LOAD, 2, "", USAGE),
    (["outcomes", "--most"], LOAD, 2, "", USAGE),
    (["outcomes"], "memory 1 1\n", 0, "states 1\noutcomes 1\n\nline 0 HOME\n", ""),
    (["outcomes"], "memory 1 1\nload 0 0 0\ndone 0\nlist 0\n", 0, "states 1\noutcomes 1\n\nline 0 FRESH 0: 0 ONLY_FRESH\n", ""),
    (
        ["outcomes"],
        VICTIM,
        0,
        "states 8\noutcomes 1\n\nnode 0 read 0 stamp 0\nline 0 HOME\nline 1 FRESH 0: 0 ONLY_FRESH\n" + "turn 0\n" * 7,
        "",
    ),
    (["outcomes"], STORE_AND_LOADS, 0, Begins("states 639\noutcomes 5\n\n"), ""),
    (["outcomes"], SHARERS + "store 0 0 0 5\nstore 1 0 0 6\nstore 2 0 0 7\n", 0, Begins("states 3597\noutcomes 6\n\n"), ""),
    (["outcomes"], SHARERS + "store 0 0 0 5\nevict 1 0\nevict 2 0\n", 0, Begins("states 627\noutcomes 1\n\n"), ""),
    (["outcomes"], LOADS_OF_FIVE, 0, Begins("states 36167\noutcomes 120\n\n"), "scisim: outcomes: 20000 states\n"),
    (["outcomes", "--most", "638"], STORE_AND_LOADS, 1, "", MANY),
    (["outcomes"], LOADS_OF_SIX, 1, "", VISITED + MANY),
    (["outcomes"], "", 1, "", refused("16 at line 1")),
    (["outcomes"], "memory 1 1\nload 0 0 0\nload 0 0 0\n", 1, "", refused("16 at line 3")),
    (["outcomes"], "memory 2 1\nload 0 0 0\nturn 0\nturn 0\nload 1 0 0\ndone 1\n", 1, "", refused("18 at line 6")),
    (["outcomes"], AT_LIMIT + " ", 1, "", refused("23")),
    (["outcomes"], Little(SHARERS + "store 0 0 0 5\nstore 1 0 0 6\nstore 2 0 0 7\n"), 1, "", refused("7")),
    (["outcomes", "missing"], LOAD, 1, "", READ),
    (["outcomes"], Broken(LOAD), 1, "", READ),
    (["outcomes"], CLOSED, 1, "", READ),
    (["outcomes"], FOLDER, 1, "", READ),
    (["outcomes"], LOAD, 1, CLOSED, WRITE),
    (["outcomes"], LOAD, 1, FULL, WRITE),
    (["outcomes"], LOAD, 1, UNREAD, WRITE),
    (["outcomes"], LOAD, 0, Filled(LOADED), ""),
    (["outcomes"], LOAD, 1, Filled(LOADED[:-1]), WRITE),
    (["outcomes", "--most", "4"], LOAD, 1, "", CLOSED),
    (["outcomes", "race", "race"], LOAD, 2, "", USAGE),
    (["outcomes", "--page"], LOAD, 0, Begins(PAGE), ""),
    (["outcomes", "--page", "race"], "", 0, Begins(PAGE), ""),
    (["outcomes", "--page", "--most", "5"], LOAD, 0, Begins(PAGE), ""),
    (["outcomes", "--page", "--most", "4"], LOAD, 1, "", MANY),
    (["outcomes", "--page", "--most", "x"], LOAD, 2, "", USAGE),
    (["outcomes", "--page"], "memory 1 1\n", 0, Begins(PAGE), ""),
    (["outcomes", "--page"], VICTIM, 0, Begins(PAGE), ""),
    (["outcomes", "--page"], STORE_AND_LOADS, 0, Begins(PAGE), ""),
    (["outcomes", "--page"], SHARERS + "store 0 0 0 5\nevict 1 0\nevict 2 0\n", 0, Begins(PAGE), ""),
    (["outcomes", "--page"], "memory 2 1\nload 0 0 0\nturn 0\nturn 0\nload 1 0 0\ndone 1\n", 1, "", refused("18 at line 6")),
    (["outcomes", "--page"], LOADS_OF_FIVE, 0, Begins(PAGE), "scisim: outcomes: 20000 states\n"),
    (["outcomes", "--page"], LOADS_OF_SIX, 1, "", VISITED + MANY),
    (["outcomes", "--page"], "", 1, "", refused("16 at line 1")),
    (["outcomes", "--page"], "memory 1 1\nload 0 0 0\nload 0 0 0\n", 1, "", refused("16 at line 3")),
    (["outcomes", "--page"], AT_LIMIT + " ", 1, "", refused("23")),
    (["outcomes", "--page"], Little(SHARERS + "store 0 0 0 5\nstore 1 0 0 6\nstore 2 0 0 7\n"), 1, "", refused("7")),
    (["outcomes", "--page", "missing"], LOAD, 1, "", READ),
    (["outcomes", "--page"], CLOSED, 1, "", READ),
    (["outcomes", "--page"], LOAD, 1, CLOSED, WRITE),
    (["outcomes", "--page"], LOAD, 1, FULL, WRITE),
    (["outcomes", "--page", "race", "race"], LOAD, 2, "", USAGE),
    (["outcomes", "--help"], "", 0, Begins("Lists every outcome of a script's open calls\n\nUsage: scisim outcomes [OPTIONS] [FILE]\n"), ""),
]
