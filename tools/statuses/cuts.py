"""Inputs that can't be read on behind each byte, or that don't end; outputs that fill at each byte; and each front of a script."""

from dumps import DUMP, LAWFUL, large_dump
from histories import counted
from kinds import READ, WRITE
from kinds import Broken, Filled, Little, refused
from runs import ALONE, ALONE_COUNTED
from scripts import ROW, TEXT

# A command that reads, its input, and its text.
SERVED = [("script", ROW, TEXT), ("run", ALONE, ALONE_COUNTED), ("run --history", ALONE, counted(3)), ("check", DUMP, LAWFUL)]
# A dump of two lines, whose lists are told once the line of text behind each is read.
LINES, THEIR_LISTS = large_dump(2, 2, 2)
READER = "memory 1 1\nload 0 0 0\ndone 0\n"
TRACED = (
    "# node 0 line 0 load: Queue(none) Done; Queueing(none); HOME\n"
    "# node 0 line 0 load: PrependValid Done; Fetching(none); FRESH lent 0: 0 QUEUED\n"
    "# node 0 line 0 load: ReturnMemory Done; InQueue(none); FRESH 0: 0 QUEUED\n"
    "# node 0 line 0 load: Settle Done; Idle; FRESH 0: 0 ONLY_FRESH\n"
    "node 0 read 0 stamp 0\n"
)


def breaks(command, given):
    """An input that fails behind each of its bytes, the last among them: nothing is served."""
    return [(command.split(), Broken(given[:end]), 1, "", READ) for end in range(len(given) + 1)]


def fills(command, given, text):
    """An output that has room for each part of a text, and for all of it."""
    return [
        *((command.split(), given, 1, Filled(text[:room]), WRITE) for room in range(len(text))),
        (command.split(), given, 0, Filled(text), ""),
    ]


def told(end):
    """What is told of the first bytes of the dump of two lines."""
    rows = LINES[:end].count("\n")
    return "".join(THEIR_LISTS.splitlines(keepends=True)[: (rows >= 5) + (rows >= 8)])


def front(end):
    """What is said of a script's first bytes: its commands are whole, or the last is cut and nothing is printed."""
    *whole, last = ROW[:end].split("\n")
    commands = ROW.splitlines()
    if not end or last not in ("", commands[len(whole)]):
        return 1, "", refused(f"16 at line {len(whole) + 1}")
    printed = [it for it in [*whole, last] if it.startswith(("done ", "list "))]
    return 0, "".join(TEXT.splitlines(keepends=True)[: len(printed)]), ""


CASES = [
    *(it for command, given, _ in SERVED for it in breaks(command, given)),
    *(it for command, given, text in [*SERVED, ("trace", READER, TRACED), ("check --large", LINES, THEIR_LISTS)] for it in fills(command, given, text)),
    *((["check", "--large"], Broken(LINES[:end]), 1, told(end), READ) for end in range(len(LINES) + 1)),
    # of a line that is longer than any row no more is kept
    (["check", "--large"], Little("x" * 30_000_000), 1, "", refused("21 at line 1")),
    *((command.split(), Broken(ROW), 1, "", READ) for command in ("trace", "trace --page")),
    *((["script"], ROW[:end], *front(end)) for end in range(len(ROW))),
    # what isn't read to its end is told before what it is
    (["script"], Broken("memory 0 1\n"), 1, "", READ),
    (["run"], Broken("work ="), 1, "", READ),
    (["check"], Broken("scidump 3"), 1, "", READ),
    *(([command, "/dev/zero"], "", 1, "", READ) for command in ("script", "run", "check")),
]
