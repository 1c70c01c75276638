"""Scripts of many numbers of nodes, and one whose node names each line there may be; and scripts, dumps and settings of as many bytes as
an input may have."""

from dumps import ITS_LISTS, LARGE_DUMP, large_dump
from kinds import LIMIT, Begins, Little, Page, Traced, refused


def visits(nodes):
    """A script of so many nodes, each of which loads the line and leaves, and its text."""
    script = [f"load {node} 0 0\ndone {node}\nlist 0\nevict {node} 0\ndone {node}\n" for node in range(nodes)]
    text = [f"node {node} read 0 stamp 0\nline 0 FRESH {node}: {node} ONLY_FRESH\nnode {node} out\n" for node in range(nodes)]
    return f"memory {nodes} 1\n" + "".join(script) + "list 0\n", "".join(text) + "line 0 HOME\n"


def named():
    """A script of a node that names each line of the largest memory, and its text."""
    script = [f"load 1023 {line} 0\ndone 1023\n" for line in range(1024)]
    text = 1024 * "node 1023 read 0 stamp 0\n" + f"node 1023 residents {' '.join(map(str, range(1023, -1, -1)))}\n"
    return "memory 1024 1024\n" + "".join(script) + "residents 1023\n", text


NAMED, ITS_NAMES = named()

# As many commands, openings, lines, words, blanks or digits as have room in a script, its status, its text and what it is told.
LARGEST = [
    ("memory 1 1\n" + "list 0\n" * 149_795, 0, "line 0 HOME\n" * 149_795, ""),
    (
        "memory 1 1\n#78901234567890123456\n"
        + "open 0 0 0 0 0 0 0 0 0 0\n" * 41_940
        + "open 0 3 5 0 0 0 0 0 0 0\nload 0 0 0\ndone 0\n",
        0,
        "node 0 read 5 stamp 3\n",
        "",
    ),
    ("memory 1 1\n" + "\n" * 1_048_558 + "list 0\n", 0, "line 0 HOME\n", ""),
    ("memory 1 1\nlist" + " 0" * 524_280 + "\n", 1, "", refused("16 at line 2")),
    ("memory 1 1\nlist" + " " * 1_048_559 + "0\n", 0, "line 0 HOME\n", ""),
    ("memory 1 1\nlist " + "0" * 1_048_560, 1, "", refused("17 at line 2")),
]
assert all(len(script) == LIMIT for script, *_ in LARGEST)

LARGER_DUMP, LARGER_LISTS = large_dump(2, 64, 1024)
# the last line's first tag isn't there
UNLAWFUL = LARGER_DUMP[: LARGER_DUMP.index("tag 1023 0 ")] + LARGER_DUMP[LARGER_DUMP.index("tag 1023 1 ") :]
ITS_RULE = LARGER_LISTS[: LARGER_LISTS.index("line 1023 ")] + "line 1023 breaks C3\n"
NO_END = LARGER_LISTS.removesuffix("lawful\n"), refused(f"21 at line {2 + 1024 * 65}")

# What is longer is taken where that is asked for. Of a dump no more than a line is kept.
LARGER = [
    (["script"], "memory 1 1\n" + "list 0\n" * 300_000, 0, "line 0 HOME\n" * 300_000, ""),
    (["script"], "memory 1 1\n" + "#" * 5_000_000 + "\nlist 0\n", 0, "line 0 HOME\n", ""),
    (["script"], "memory 1 1\n" + "\n" * 2_000_000 + "list 1\n", 1, "", refused("17 at line 2000002")),
    (["script", "--why"], "memory 1 1\n" + "\n" * 2_000_000 + "list 1\n", 1, "", f"{refused('17 at line 2000002')}word 2: 0 wanted\n"),
    (["trace"], "memory 1 1\n" + "#\n" * 1_000_000 + "load 0 0 0\ndone 0\n", 0, Traced("node 0 read 0 stamp 0\n"), ""),
    (["outcomes"], "memory 1 1\n" + "#\n" * 1_000_000, 0, "states 1\noutcomes 1\n\nline 0 HOME\n", ""),
    *(([name], Little("memory 1 1\n" + "#" * 30_000_000), 1, "", refused("7")) for name in ("script", "trace", "outcomes")),
    (["script"], "memory 1024 1024\n" + "rest\n" * 1_000_000, 0, "", ""),
    (["check"], Little(LARGER_DUMP), 0, LARGER_LISTS, ""),
    (["check"], UNLAWFUL, 3, ITS_RULE, ""),
    (["check"], LARGER_DUMP.removesuffix("end\n"), 1, *NO_END),
    (["check", "--why"], LARGER_DUMP.removesuffix("end\n"), 1, NO_END[0], Begins(NO_END[1])),
    (["check"], "\n" * 2_000_000 + LARGE_DUMP, 1, "", refused("21 at line 1")),
]


def largest_dump():
    """A dump of 340 lines that 64 nodes share each, and of unused lines whose contents fill it up; and what is printed of it."""
    shared, unused = LARGE_DUMP.removesuffix("end\n"), []
    count = (LIMIT - len(LARGE_DUMP)) // 100
    room = LIMIT - len(LARGE_DUMP)
    for number in range(count):
        line = f"line {340 + number} 00000000ffff0000 "
        share = room // (count - number) - len(line) - 1
        room -= share + len(line) + 1
        values = ["1" * (share // 9 - 1)] * 8
        unused.append(f"{line}{' '.join([*values, '1' * (share - len(' '.join(values)) - 1)])}\n")
    homes = "".join(f"line {340 + number} HOME\n" for number in range(count))
    text = shared.replace("scidump 2 64 340\n", f"scidump 2 64 {340 + count}\n") + "".join(unused) + "end\n"
    return text, ITS_LISTS.replace("lawful\n", f"{homes}lawful\n")


def longest_ring():
    """The settings of a ring of 100,000 items, whose digits fill them up; and what is printed of it."""
    front = 'work = "ring"\nlines = 1023\ncapacity = 1024\nitems = ['
    digits, more = divmod(LIMIT - len(front) - len("]\n") - 2 * 99_999, 100_000)
    items = ["7" * (digits + (number < more)) for number in range(100_000)]
    return f"{front}{', '.join(items)}]\n", f"items {' '.join(items)}\n"


# Each number of nodes up to 64, and those round the powers of two behind it, as far as there may be nodes.
NODES = [*range(1, 65), *(power + more for power in (128, 256, 512) for more in (-1, 0, 1)), 1023, 1024]
DUMP, ITS_VERDICT = largest_dump()
RING, ITS_ITEMS = longest_ring()
assert len(DUMP) == len(RING) == LIMIT

CASES = [
    *((["script"], script, 0, text, "") for script, text in map(visits, NODES)),
    *((["script"], *it) for it in LARGEST),
    *(([command, "--large", *options], *it) for (command, *options), *it in LARGER),
    # `rest` costs what it changes: a look at each node of each line would take minutes, also where each line was used
    (["script"], "memory 1024 1024\n" + "rest\n" * 150_000, 0, "", ""),
    (["script"], NAMED.removesuffix("residents 1023\n") + "rest\n" * 100_000, 0, 1024 * "node 1023 read 0 stamp 0\n", ""),
    (["script"], NAMED, 0, ITS_NAMES, ""),
    (["trace"], NAMED, 0, Traced(ITS_NAMES), ""),
    (["trace", "--page"], NAMED, 0, Page(ITS_NAMES), ""),
    *((["trace"], *it) for it in LARGEST[:1]),
    *((["trace", "--page"], script, status, Page(text), said) for script, status, text, said in LARGEST[:1]),
    (["check"], DUMP, 0, ITS_VERDICT, ""),
    (["run"], RING, 0, ITS_ITEMS, ""),
]
