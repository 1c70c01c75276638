"""Scripts of bounded caches, with their texts, worked out by hand from the tables of rows and turns; and what the nodes of workloads
keep of their lines, by the rule that a node names the lines that it used last."""

from kinds import refused

# What one node of a stencil leaves of the six lines of three tiles after a phase, by its capacity: it writes lines 0, 2 and 4; then it
# reads 0 and 2 and writes 1, reads 2, 0 and 4 and writes 3, reads 4 and 2 and writes 5; and at last it reads 1, 3 and 5. A line that it
# no longer names is at home (H). One that it wrote, and has named ever since, it keeps dirty (D); one that it came back to read, fresh (F).
LEFT = {1: "HHHHHF", 2: "HHHFHF", 3: "HFHFHD", 4: "HFDFHD", 5: "HFDDDD", 6: "DDDDDD", 1024: "DDDDDD"}
TILES = f'work = "stencil"\nnodes = 1\nphases = 1\ncells = {21 * [1]}\ndump = true\n'
TAKEN_IN = f"cells 2{19 * ' 3'} 2\n"
# What was written to those lines: the stamp and the words.
WRITTEN = [
    "1 1 1 1 1 1 1 1 1",
    "1 2 2 3 3 3 3 3 3",
    "1 1 1 1 1 1 1 1 1",
    "1 2 3 3 3 3 3 3 3",
    "1 1 1 1 1 1 1 1 1",
    "1 2 3 3 3 3 3 3 2",
]
ZEROS = "0 0 0 0 0 0 0 0 0"


def line_of_one(line, state):
    """The text of a line of the stencil's node."""
    content = WRITTEN[line]
    if state == "H":
        return f"line {line} 00000000ffff0000 {content}\n"
    if state == "F":
        return f"line {line} 0000000000000001 {content}\ntag {line} 0 0000ffffffff0002 {content}\n"
    return f"line {line} 0000000000000002 {ZEROS}\ntag {line} 0 0000ffffffff0003 {content}\n"


def tiles_dump(states):
    return "scidump 2 1 6\n" + "".join(map(line_of_one, range(6), states)) + "end\n"


def ring_of(count):
    """The settings of a ring that has a line for each of its items, which are sevens."""
    return f'work = "ring"\nlines = {count}\nitems = {count * [7]}\ndump = true\n'


def passed_line(line, count, capacity):
    """The text of a line of that ring. Node 0 writes each once, and names the last ones; node 1 reads each, and names as many, but for
    the line behind them, where it counts. Who reads last is the head."""
    content = f"1 {line + 1} 7 0 0 0 0 0 0"
    if line < count - capacity:
        return f"line {line} 00000000ffff0000 {content}\n"
    if line == count - capacity:
        return f"line {line} 0000000000000002 {ZEROS}\ntag {line} 0 0000ffffffff0003 {content}\n"
    return f"line {line} 0000000000010002 {ZEROS}\ntag {line} 0 00000001ffff0007 {content}\ntag {line} 1 0000ffff00000003 {content}\n"


def ring_text(count, capacity):
    """What that ring prints. With a capacity of one, node 1 leaves the line where it counts before each item but the first."""
    lines = "".join(passed_line(line, count, capacity) for line in range(count))
    before, last = f"{count - 1} {count - 1} 0 0 0 0 0 0 0", f"{count} {count} 0 0 0 0 0 0 0"
    counted = f"line {count} 0000000000010002 {before if capacity == 1 else ZEROS}\ntag {count} 1 0000ffffffff0003 {last}\n"
    return f"items{count * ' 7'}\nscidump 2 2 {count + 1}\n{lines}{counted}end\n"


WORKED = [
    *((["run"], f"{TILES}capacity = {capacity}\n", 0, TAKEN_IN + tiles_dump(states), "") for capacity, states in LEFT.items()),
    *((["run"], f"{ring_of(5)}capacity = {capacity}\n", 0, ring_text(5, capacity), "") for capacity in range(1, 8)),
    *((["run"], f"{ring_of(1023)}capacity = {capacity}\n", 0, ring_text(1023, capacity), "") for capacity in (1022, 1023, 1024)),
]

CASES = [
    (
        ["script"],
        (
            "memory 1 3\ncapacity 2\nresidents 0\nload 0 0 0\ndone 0\nload 0 1 0\ndone 0\nresidents 0\n"
            "load 0 0 0\nresidents 0\ndone 0\nload 0 2 0\nresidents 0\ndone 0\nlist 1\nevict 0 0\n"
            "residents 0\ndone 0\nresidents 0\n"
        ),
        0,
        (
            "node 0 residents\nnode 0 read 0 stamp 0\nnode 0 read 0 stamp 0\nnode 0 residents 1 0\n"
            "node 0 residents 0 1\nnode 0 read 0 stamp 0\nnode 0 residents 2 0\nnode 0 read 0 stamp 0\n"
            "line 1 HOME\nnode 0 residents 2 0\nnode 0 out\nnode 0 residents 2\n"
        ),
        "",
    ),
    (
        ["script"],
        "memory 1 2\nload 0 0 0\ndone 0\nstore 0 1 0 5\ndone 0\nlist 0\nresidents 0\n",
        0,
        (
            "node 0 read 0 stamp 0\nnode 0 wrote stamp 1\nline 0 FRESH 0: 0 ONLY_FRESH\n"
            "node 0 residents 1 0\n"
        ),
        "",
    ),
    # a dirty victim is written back first, a turn an exchange: four turns more than the line alone takes
    (
        ["script"],
        (
            "memory 1 2\ncapacity 1\nstore 0 0 0 7\ndone 0\nload 0 1 0\nresidents 0\nturn 0\nlist 0\nturn 0\n"
            "list 0\nturn 0\nturn 0\nlist 1\nturn 0\nturn 0\nturn 0\nlist 1\nturn 0\nload 0 0 0\ndone 0\nlist 1\n"
        ),
        0,
        (
            "node 0 wrote stamp 1\nnode 0 residents 1\nline 0 GONE 0: 0 LEAVING\nline 0 HOME\n"
            "line 1 HOME\nline 1 FRESH 0: 0 QUEUED\nnode 0 read 0 stamp 0\nnode 0 read 7 stamp 1\n"
            "line 1 HOME\n"
        ),
        "",
    ),
    # the victim rolls out, and the purging head waits for it
    (
        ["script"],
        (
            "memory 2 2\ncapacity 1\nload 0 0 0\ndone 0\nload 1 0 0\ndone 1\nstore 1 0 0 7\nturn 1\nturn 1\n"
            "turn 1\nload 0 1 0\nresidents 0\nturn 0\nlist 0\nturn 1\nturn 0\nlist 0\nturn 0\nturn 1\ndone 0\n"
            "list 0\nlist 1\n"
        ),
        0,
        (
            "node 0 read 0 stamp 0\nnode 1 read 0 stamp 0\nnode 0 residents 1\n"
            "line 0 GONE 1: 1 PURGING, 0 ROLL\nnode 1 waits\nline 0 GONE 1: 1 PURGING\n"
            "node 1 wrote stamp 1\nnode 0 read 0 stamp 0\nline 0 GONE 1: 1 ONLY_DIRTY\n"
            "line 1 FRESH 0: 0 ONLY_FRESH\n"
        ),
        "",
    ),
    # the victim is purged, and waits to be cleared
    (
        ["script"],
        (
            "memory 2 2\ncapacity 1\nload 0 0 0\ndone 0\nload 1 0 0\ndone 1\nstore 1 0 0 7\nturn 1\nturn 1\n"
            "turn 1\nturn 1\nlist 0\nload 0 1 0\nturn 0\nturn 1\nturn 1\nturn 0\nturn 1\ndone 0\nlist 0\n"
            "residents 0\n"
        ),
        0,
        (
            "node 0 read 0 stamp 0\nnode 1 read 0 stamp 0\nline 0 GONE 1: 1 PURGING, 0 PURGED\n"
            "node 0 waits\nnode 1 wrote stamp 1\nnode 0 read 0 stamp 0\nline 0 GONE 1: 1 ONLY_DIRTY\n"
            "node 0 residents 1\n"
        ),
        "",
    ),
    # a line that was purged stays named
    (
        ["script"],
        (
            "memory 2 2\nload 0 0 0\ndone 0\nstore 1 0 0 7\ndone 1\nlist 0\ntag 0 0\nresidents 0\nload 0 1 0\n"
            "done 0\nresidents 0\n"
        ),
        0,
        (
            "node 0 read 0 stamp 0\nnode 1 wrote stamp 1\nline 0 GONE 1: 1 ONLY_DIRTY\n"
            "tag 0 0 INVALID forw - back -\nnode 0 residents 0\nnode 0 read 0 stamp 0\n"
            "node 0 residents 1 0\n"
        ),
        "",
    ),
    (["script"], "capacity 1", 1, "", refused("16 at line 1")),
    (["script"], "memory 1 1\ncapacity", 1, "", refused("16 at line 2")),
    (["script"], "memory 1 1\ncapacity 1 1", 1, "", refused("16 at line 2")),
    (["script"], "memory 1 1\ncapacity 0", 1, "", refused("17 at line 2")),
    (["script"], "memory 1 1\ncapacity 1025", 1, "", refused("17 at line 2")),
    (["script"], "memory 1 1\ncapacity 1\ncapacity 1", 1, "", refused("16 at line 3")),
    (["script"], "memory 1 1\nlist 0\ncapacity 1", 1, "", refused("16 at line 3")),
    (["script"], "memory 1 1\nopen 0 0 0 0 0 0 0 0 0 0\ncapacity 1", 1, "", refused("16 at line 3")),
    (["script"], "memory 1 1\nresidents", 1, "", refused("16 at line 2")),
    (["script"], "memory 1 1\nresidents 0 0", 1, "", refused("16 at line 2")),
    (["script"], "memory 1 1\nresidents 1", 1, "", refused("17 at line 2")),
    (["script"], "memory 1 1\nresidents 0\nopen 0 0 0 0 0 0 0 0 0 0", 1, "", refused("16 at line 3")),
    (
        ["script"],
        (
            "memory 2 2\ncapacity 1\nstore 0 0 0 5\ndone 0\nstore 0 0 0 6\nturn 0\nstore 1 1 0 5\ndone 1\n"
            "load 1 0 0\ndone 1\n"
        ),
        1,
        "node 0 wrote stamp 1\nnode 1 wrote stamp 1\n",
        refused("18 at line 10"),
    ),
    *WORKED,
]
