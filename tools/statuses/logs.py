"""Which logs `check` calls runs, the first line of others that is none, and which texts are no logs."""

import pathlib

from kinds import CLOSED, FOLDER, FULL, LIMIT, READ, USAGE, WRITE
from kinds import Begins, refused

CLIENTS = pathlib.Path(__file__).resolve().parents[2] / "examples/clients"
PURGE = (CLIENTS / "purge_by_steps.log").read_text(encoding="utf-8")
LINES = PURGE.splitlines(keepends=True)
FOLLOWS = "follows\n"
# Node 0 is alone on its list, and looks at its tag again and again: more bytes than a script may have.
ALONE = "".join(LINES[:5])
LONG = ALONE + "node 0 line 0 Look Done\n" * (LIMIT // 20)


def without(line):
    """The purge with a line of text left out, counted from 1."""
    return "".join(LINES[: line - 1] + LINES[line:])


# A number one above the range of its type, and one of more digits than any type has.
ABOVE = ("65535", "65536", "70000", "18446744073709551616", "9" * 40)
EVENT = "memory 2 1\nnode {} line {} {} Done\n"
ZEROS = " 0" * 9


def ranges():
    """Texts with one number on either side of its range, and the line at which they are refused with 17, or None."""
    for nodes, lines in (("1024", "1024"), ("1", "1")):
        yield f"memory {nodes} {lines}\n", None
    for number in ("0", "1025", *ABOVE):
        yield f"memory {number} 1\n", 1
        yield f"memory 1 {number}\n", 1
    yield f"memory 2 2\nopen 1{ZEROS}\n", None
    yield EVENT.format("1", "0", "Queue(none)"), None
    for number in ("2", "1024", *ABOVE):
        yield f"memory 2 2\nopen {number}{ZEROS}\n", 2
        yield EVENT.format(number, "0", "Queue(none)"), 2
        yield EVENT.format("0", number, "Queue(none)"), 2
        yield EVENT.format("0", "0", f"AttachFresh({number} ONLY_FRESH)"), 2


# The head that a node found is none or a node: of any other number the event isn't in turn.
QUEUED = [EVENT.format("0", "0", f"Queue({number})") for number in ("5", *ABOVE)]

CASES = [
    *((["check"], text, 1 if line else 0, "" if line else FOLLOWS, refused(f"17 at line {line}") if line else "") for text, line in ranges()),
    *((["check"], text, 3, "line 2: not in turn\n", "") for text in QUEUED),
    *((["check"], f"memory {number} 1\n", 1, "", refused("16 at line 1")) for number in ("", "01", "+1", "1_0", "x")),
    (["check"], PURGE, 0, FOLLOWS, ""),
    (["check"], "memory 1024 1024\n", 0, FOLLOWS, ""),
    (["check"], PURGE.replace("\n", "\r\n"), 0, FOLLOWS, ""),
    (["check"], PURGE.rstrip(), 0, FOLLOWS, ""),
    (["check"], LONG, 0, FOLLOWS, ""),
    (["check"], LONG + "node 0 line 0 Settle Done\n", 3, f"line {LONG.count(chr(10)) + 1}: not in turn\n", ""),
    (["check"], without(22), 3, "line 23: not in turn\n", ""),
    (["check"], PURGE.replace("0 ONLY_FRESH", "0 ONLY_DIRTY"), 3, "line 9: another word stood there\n", ""),
    (["check"], ALONE.replace("Settle Done", "Settle Done 1 0 0 0 0 0 0 0 0"), 3, "line 5: another line is answered\n", ""),
    (["check"], ALONE.replace("Settle Done", "Settle Busy"), 3, "line 5: it can't end so\n", ""),
    (["check"], PURGE.replace("Settle Done", "Settle done", 1), 1, "", refused("16 at line 5")),
    (["check"], PURGE.replace("node 1 ", "node 3 ", 1), 1, "", refused("17 at line 6")),
    (["check", "missing"], PURGE, 1, "", READ),
    (["check"], CLOSED, 1, "", READ),
    (["check"], FOLDER, 1, "", READ),
    (["check"], PURGE, 1, FULL, WRITE),
    (["check", "x", "y"], PURGE, 2, "", USAGE),
]
