"""Which dumps `check` calls lawful, which rule others break, and which texts are no dumps."""

from kinds import AT_LIMIT, CLOSED, FOLDER, FULL, LIMIT, READ, UNREAD, USAGE, WRITE
from kinds import Begins, Little, refused

# The line that three nodes share, in layout 2 and in layout 1.
DUMP = (
    "scidump 2 3 1\nline 0 0000000000020001 0 0 0 0 0 0 0 0 0\ntag 0 0 00000001ffff0007 0 0 0 0 0 0 0 0 0\n"
    "tag 0 1 0000000200000007 0 0 0 0 0 0 0 0 0\ntag 0 2 0000ffff00010002 0 0 0 0 0 0 0 0 0\nend\n"
)
DUMP_1 = (
    "scidump 1 3 1\nline 0 0000000000000201 0 0 0 0 0 0 0 0 0\ntag 0 0 000000000001ff07 0 0 0 0 0 0 0 0 0\n"
    "tag 0 1 0000000000020007 0 0 0 0 0 0 0 0 0\ntag 0 2 0000000000ff0102 0 0 0 0 0 0 0 0 0\nend\n"
)
LAWFUL = "line 0 FRESH 2: 2 HEAD_FRESH, 1 MID_VALID, 0 TAIL_VALID\nlawful\n"
# Each with one change, which breaks this rule.
BROKEN = {
    "C1": DUMP.replace("tag 0 2 0000ffff00010002", "tag 0 2 0000ffff00010012"),
    "C2": DUMP.replace("tag 0 0 00000001ffff0007", "tag 0 0 0000000100010007"),
    "C3": DUMP.replace("line 0 0000000000020001", "line 0 00000000ffff0000"),
    "C4": DUMP.replace("tag 0 1 0000000200000007", "tag 0 1 0000ffff00000003"),
    "C5": DUMP.replace("line 0 0000000000020001", "line 0 0000000000020002"),
    "C6": DUMP.replace("tag 0 0 00000001ffff0007 0", "tag 0 0 00000001ffff0007 1"),
}
BROKEN_1 = {
    "C1": DUMP_1.replace("tag 0 2 0000000000ff0102", "tag 0 2 0000000000ff0112"),
    "C2": DUMP_1.replace("tag 0 0 000000000001ff07", "tag 0 0 0000000000010107"),
    "C3": DUMP_1.replace("line 0 0000000000000201", "line 0 000000000000ff00"),
    "C4": DUMP_1.replace("tag 0 1 0000000000020007", "tag 0 1 0000000000ff0003"),
    "C5": DUMP_1.replace("line 0 0000000000000201", "line 0 0000000000000202"),
    "C6": DUMP_1.replace("tag 0 0 000000000001ff07 0", "tag 0 0 000000000001ff07 1"),
}


def large_dump(layout, nodes, lines):
    """A dump of lines that all nodes share, and what is printed of it."""
    zeros, text, listed, last = " 0" * 9, [f"scidump {layout} {nodes} {lines}"], [], nodes - 1
    # links are so wide, and their greatest number is none
    width, none = 8 * layout, (1 << 8 * layout) - 1
    for line in range(lines):
        text.append(f"line {line} {last << width | 1:016x}{zeros}")
        for node in range(nodes):
            forward, back = (node - 1 if node else none), (node + 1 if node < last else none)
            word = back << 2 * width | forward << width | (7 if node < last else 2)
            text.append(f"tag {line} {node} {word:016x}{zeros}")
        entries = [f"{last} HEAD_FRESH", *(f"{node} MID_VALID" for node in range(last - 1, 0, -1)), "0 TAIL_VALID"]
        listed.append(f"line {line} FRESH {last}: {', '.join(entries)}\n")
    return "\n".join(text) + "\nend\n", "".join(listed) + "lawful\n"


# Dumps close to the limit of an input: of many lines, in both layouts, and of lines that as many nodes share as may.
LARGE_DUMP, ITS_LISTS = large_dump(2, 64, 340)
LARGE_DUMP_1, _ = large_dump(1, 64, 340)
WIDE_DUMP, WIDE_LISTS = large_dump(2, 1024, 21)


def unused(front, home):
    """The dump of 1,024 lines that nobody uses."""
    return f"{front} 1024\n" + "".join(f"line {line} {home}{' 0' * 9}\n" for line in range(1024)) + "end\n"


# The dumps of the largest memory of each layout.
UNUSED, UNUSED_1 = unused("scidump 2 1024", "00000000ffff0000"), unused("scidump 1 64", "000000000000ff00")
ALL_HOME = "".join(f"line {line} HOME\n" for line in range(1024)) + "lawful\n"

# An unused line, one that node 1 has alone, dirty, and one that both nodes have.
THREE_LINES = (
    "scidump 2 2 3\n"
    "line 0 00000000ffff0000 0 0 0 0 0 0 0 0 0\n"
    "line 1 0000000000010002 0 0 0 0 0 0 0 0 0\n"
    "tag 1 1 0000ffffffff0003 1 18446744073709551615 0 0 0 0 0 0 0\n"
    "line 2 0000000000000002 0 0 0 0 0 0 0 0 0\n"
    "tag 2 0 0000ffff00010003 7 0 0 0 0 0 0 0 1\n"
    "tag 2 1 00000000ffff0007 7 0 0 0 0 0 0 0 1\n"
    "end\n"
)
THREE_LISTS = "line 0 HOME\nline 1 GONE 1: 1 ONLY_DIRTY\nline 2 GONE 0: 0 HEAD_DIRTY, 1 TAIL_VALID\nlawful\n"
THIRD_BROKEN = THREE_LINES.replace("tag 2 1 00000000ffff0007 7", "tag 2 1 00000000ffff0007 8")

FILES = {
    "dump": DUMP,
    "broken": BROKEN["C4"],
    "large_dump": LARGE_DUMP,
}

CASES = [
    (["check"], DUMP, 0, LAWFUL, ""),
    (["check", "dump"], "", 0, LAWFUL, ""),
    (["check", "dump"], BROKEN["C1"], 0, LAWFUL, ""),
    (["check", "./dump"], CLOSED, 0, LAWFUL, ""),
    (["check"], "scidump 2 1 1\nline 0 00000000ffff0000 0 0 0 0 0 0 0 0 0\nend\n", 0, "line 0 HOME\nlawful\n", ""),
    (["check"], "scidump 1 1 1\nline 0 000000000000ff00 0 0 0 0 0 0 0 0 0\nend\n", 0, "line 0 HOME\nlawful\n", ""),
    (["check", "large_dump"], "", 0, ITS_LISTS, ""),
    (["check"], LARGE_DUMP, 0, ITS_LISTS, ""),
    (["check"], LARGE_DUMP_1, 0, ITS_LISTS, ""),
    (["check"], WIDE_DUMP, 0, WIDE_LISTS, ""),
    (["check"], Little(DUMP), 0, LAWFUL, ""),
    *((["check"], dump, 0, ALL_HOME, "") for dump in (UNUSED, UNUSED_1)),
    *((["check"], dump, 3, f"line 0 breaks {rule}\n", "") for dumps in (BROKEN, BROKEN_1) for rule, dump in dumps.items()),
    (["check", "broken"], DUMP, 3, "line 0 breaks C4\n", ""),
    # the dump of layout 1 is read, and no dump of another layout, or of more nodes than its layout has
    (["check"], DUMP_1, 0, LAWFUL, ""),
    (["check"], DUMP.replace("2 3 1", "2 1024 1", 1), 0, LAWFUL, ""),
    (["check"], DUMP_1.replace("1 3 1", "1 64 1", 1), 0, LAWFUL, ""),
    *((["check"], DUMP_1.replace("1 3 1", it, 1), 1, "", refused("21 at line 1")) for it in ("3 3 1", "0 3 1", "1 65 1", "1 0 1")),
    *((["check"], DUMP.replace("2 3 1", it, 1), 1, "", refused("21 at line 1")) for it in ("3 3 1", "02 3 1", "2 1025 1", "2 0 1", "1 1024 1")),
    # the words are of the other layout
    (["check"], DUMP_1.replace("scidump 1", "scidump 2"), 1, "", refused("21 at line 2")),
    (["check"], DUMP.replace("scidump 2", "scidump 1"), 1, "", refused("21 at line 2")),
    *((["check"], dump[: dump.index("tag 0 0") + 20], 1, "", refused("21 at line 3")) for dump in (DUMP, DUMP_1)),
    (["check"], DUMP[:-1], 1, "", refused("21 at line 6")),
    (["check"], DUMP + "\n", 1, "", refused("21 at line 7")),
    (["check"], DUMP.replace("\n", "\r\n"), 1, "", refused("21 at line 1")),
    (["check"], "", 1, "", refused("21 at line 1")),
    (["check", "row"], DUMP, 1, "", refused("16 at line 2")),
    (["check", "limit"], "", 1, "", refused("21 at line 1")),
    (["check", "long"], DUMP, 1, "", refused("23")),
    (["check", "missing"], DUMP, 1, "", READ),
    (["check", "folder"], DUMP, 1, "", READ),
    (["check", b"\xff"], DUMP, 1, "", READ),
    (["check"], CLOSED, 1, "", READ),
    (["check"], FOLDER, 1, "", READ),
    (["check"], DUMP, 1, CLOSED, WRITE),
    (["check", "dump"], "", 1, FULL, WRITE),
    (["check", "large_dump"], "", 1, UNREAD, WRITE),
    (["check", "broken"], "", 1, FULL, WRITE),
    (["check"], "", 1, FULL, refused("21 at line 1")),
    (["check", "broken"], "", 3, "line 0 breaks C4\n", CLOSED),
    (["check", "dump", "dump"], DUMP, 2, "", USAGE),
    (["check", "--nonsense"], DUMP, 2, "", USAGE),
    (["check", "--help"], "", 0, Begins("Judges a dump, a history or a log\n\nUsage: scisim check [OPTIONS] [FILE]\n"), ""),
    # a lent memory word, and one that names a node which is no sharer
    (["check"], DUMP.replace("0000000000020001", "0000000000020011"), 3, "line 0 breaks C1\n", ""),
    (["check"], DUMP.replace("0000000000020001", "0000000000030001"), 3, "line 0 breaks C2\n", ""),
    # and a head that layout 1 has no room for
    (["check"], DUMP.replace("0000000000020001", "0000000001020001"), 3, "line 0 breaks C2\n", ""),
    # where a line breaks a rule, the lists of those before it aren't printed
    (["check"], THREE_LINES, 0, THREE_LISTS, ""),
    (["check"], THIRD_BROKEN, 3, "line 2 breaks C6\n", ""),
    (["check"], THIRD_BROKEN.replace("0000000000010002", "0000000000010012"), 3, "line 1 breaks C1\n", ""),
    (["check"], DUMP.replace("scidump", ""), 1, "", refused("21 at line 1")),
    (["check"], DUMP.replace("line 0", "line 1"), 1, "", refused("21 at line 2")),
    (["check"], DUMP.replace("tag 0 1", "tag 0 0"), 1, "", refused("21 at line 4")),
    (["check"], DUMP.replace("end\n", "end\r\n"), 1, "", refused("21 at line 6")),
    (["check"], DUMP.ljust(LIMIT), 1, "", refused("21 at line 7")),
    (["check"], DUMP.ljust(LIMIT + 1), 1, "", refused("23")),
    # a dump that is cut behind j line ends is refused at line j + 1
    *(
        (["check"], dump[:end], 1, "", refused(f"21 at line {dump[:end].count(chr(10)) + 1}"))
        for dump in (DUMP, DUMP_1)
        for end in range(len(dump))
    ),
]
