"""The six commands: names that are none, `-` as FILE, which texts `check` takes for what, and what `--why` says of files and streams."""

from dumps import DUMP, LAWFUL
from histories import BROKEN, HISTORY
from kinds import AT_LIMIT, CLOSED, FOLDER, FULL, LIMIT, READ, UNREAD, USAGE, WRITE
from kinds import Begins, Broken, Little, refused
from logs import FOLLOWS, LONG, PURGE
from outcomes import LOAD, LOADED
from runs import ALONE, ALONE_COUNTED, COUNT
from scripts import ROW, TEXT

# What a text is, that `check` is given, and its verdict.
KNOWN = [(DUMP, LAWFUL), (HISTORY, "legal\n"), (PURGE, FOLLOWS), ("memory 1 1", FOLLOWS), ("memory 1 1\r\n", FOLLOWS)]
# What may stand before a log and says nothing, and how many lines it has.
NOTHING = ["\n", "# one\n# two\n", " \t\n\n", "\r\n", " \r\n#\r\n", "#" + "x" * LIMIT + "\n", "\n" * (LIMIT + 1), " " * LIMIT + "\n"]
# First lines of no text that is known, a log's but for its beginning among them.
NO_WORD = ["\n", "#\n", "memor 1 1\n", "memory1 1\n", "Memory 1 1\n", " memory 1 1\n", "\tmemory 1 1\n", "\rmemory 1 1\n", "\r\r\nmemory 1 1\n",
           "memory\0 1 1\n", " # no comment\nmemory 1 1\n", "open 0 0 0 0 0 0 0 0 0 0\n", "node 0 line 0 Look Done\n", "end\n", "#memory 1 1",
           "scihistor", "scihistoryx 1 1 1\n", "scihistory1 1 1\n", "SCIHISTORY 1 1 1\n"]  # fmt: skip
# A log whose third line is refused, and one whose third line no lawful line answers so.
UNREAD_LOG, DEPARTS = "memory 1 1\n#\nnode 1 line 0 Look Done\n", "memory 1 1\n#\nnode 0 line 0 Settle Done\n"

FAULTS = [
    ("missing", "", "missing: no such file"),
    ("row/row", "", "row/row: its path goes through a file"),
    ("folder", "", "folder: a folder"),
    ("x" * 300, "", f"{'x' * 300}: no name of a file"),
    ("-", CLOSED, "standard input: closed"),
    ("-", FOLDER, "standard input: a folder"),
    ("-", Broken(""), "standard input: the other end broke off"),
]
OUTPUTS = [(FULL, "no space left"), (CLOSED, "closed"), (UNREAD, "nobody reads it")]
# Each command that reads FILE, with an input, what it writes and its status.
SERVED = [
    (["script"], ROW, TEXT),
    (["trace", "--page"], "memory 1 1\n", Begins("<!DOCTYPE html>\n")),
    (["trace", "--log"], LOAD, "memory 1 1\n"),
    (["outcomes"], LOAD, LOADED),
    (["outcomes", "--page"], LOAD, Begins("<!DOCTYPE html>\n")),
    (["run"], ALONE, ALONE_COUNTED),
    (["run", "--history"], COUNT, Begins("scihistory 1 4 1\n")),
    (["check"], DUMP, LAWFUL),
    (["check"], HISTORY, "legal\n"),
    (["check"], PURGE, FOLLOWS),
]

CASES = [
    *(([name, *more], ROW, 2, "", USAGE) for name in ("draw", "play", "history", "legal", "follow", "-") for more in ([], ["row"], ["--help"])),
    ([], "", 2, "", Begins("")),
    (["trace", "--page", "--log"], ROW, 2, "", USAGE),
    (["talk", "-"], ROW, 2, "", USAGE),
    *(([it, "--page"], ROW, 2, "", USAGE) for it in ("script", "talk", "run", "check")),
    *((words, given, 0, text, "") for words, given, text in SERVED),
    *(([*words, "-"], given, 0, text, "") for words, given, text in SERVED),
    *(([*words, "--why"], given, 0, text, "") for words, given, text in SERVED),
    *(([*words, "--why", "-"], given, 0, text, "") for words, given, text in SERVED),
    (["script", "./-"], ROW, 1, "", READ),
    (["script", "-", "-"], ROW, 2, "", USAGE),
    *((["check"], text, 0, verdict, "") for text, verdict in KNOWN),
    *((["check"], nothing + PURGE, 0, FOLLOWS, "") for nothing in NOTHING),
    *((["check"], nothing + UNREAD_LOG, 1, "", refused(f"17 at line {nothing.count(chr(10)) + 3}")) for nothing in NOTHING),
    *((["check"], nothing + DEPARTS, 3, f"line {nothing.count(chr(10)) + 3}: not in turn\n", "") for nothing in NOTHING),
    # before any other text they are a dump's first fault, or make it too long
    *(
        (["check"], nothing + text, 1, "", refused("23" if len(nothing + text) > LIMIT else "21 at line 1"))
        for nothing in NOTHING
        for text in (DUMP, HISTORY, ROW.replace("memory", "capacity"), "")
    ),
    *((["check"], text, 1, "", refused("21 at line 1")) for text in NO_WORD),
    *((["check"], text.ljust(LIMIT + 1), 1, "", refused("23")) for text in NO_WORD),
    (["check"], AT_LIMIT, 1, "", refused("21 at line 1")),
    (["check"], AT_LIMIT + "\n", 1, "", refused("23")),
    *((["check"], text, 1, "", refused("16 at line 1")) for text in ("memory", "memory\t1 1\n", "memory 1\n", "memory\r1 1\n", ROW.replace("memory", "memory ", 1))),
    (["check"], "scihistory\t1 1 1\n", 1, "", refused("21 at line 1")),
    # little is kept of what says nothing, and of a log
    *((["check"], Little(nothing + PURGE), 0, FOLLOWS, "") for nothing in (40 * NOTHING[-3], NOTHING[-2], 40 * NOTHING[-1])),
    (["check"], Little("\n" * 40_000_000), 1, "", refused("23")),
    (["check"], Little(LONG), 0, FOLLOWS, ""),
    *(([*words, "--why", file], given, 1, "", READ + why + "\n") for words, *_ in SERVED for file, given, why in FAULTS),
    *(([*words, file], given, 1, "", READ) for words, *_ in SERVED for file, given, _ in FAULTS),
    *(([*words, "--why"], given, 1, stream, f"{WRITE}standard output: {why}\n") for words, given, _ in SERVED for stream, why in OUTPUTS),
    *(([*words], given, 1, stream, WRITE) for words, given, _ in SERVED for stream, why in OUTPUTS),
    *((["talk", "--why"], given, 1, "", READ + why + "\n") for file, given, why in FAULTS[-3:-1]),
    *((["talk", "--why"], ROW, 1, stream, f"{WRITE}standard output: {why}\n") for stream, why in OUTPUTS),
    (["script", "--why", "/dev/zero"], "", 1, "", READ + "/dev/zero: no end\n"),
    # a check that says no has its verdict, and nothing beside it
    (["check", "--why"], BROKEN["H5"], 3, "line 0 breaks H5\n", ""),
    (["check", "--why"], DEPARTS, 3, "line 3: not in turn\n", ""),
    (["check", "--why"], UNREAD_LOG, 1, "", Begins(refused("17 at line 3"))),
    *((["check", "--why", *large], "", 1, "", refused("21 at line 1") + "an early end: scidump 1 or 2 wanted\n") for large in ([], ["--large"])),
    *(
        (["check", "--why", *large], text, 1, "", refused("21 at line 1") + why + "\n")
        for text, why in [
            ("x" * 1024, "scidump 1 or 2 wanted, 1024 or more bytes found"),
            ("scidump 2 3 1" + " " * 1010, "4 words wanted, 1014 found"),
            ("scidump 2 3 1" + " " * 1011, "fewer than 1024 bytes wanted, 1024 or more found"),
        ]
        for large in ([], ["--large"])
    ),
    (["check", "--why"], AT_LIMIT + "x", 1, "", refused("23")),
    (["check", "--why"], HISTORY[:-1], 1, "", Begins(refused("21 at line 7"))),
    (["check", "--why"], Little(HISTORY.replace("end\n", "read 1 1 7 0 0 0 0 0 0 0\n" * 500_000 + "end\n")), 1, "", refused("7")),
    (["run", "--why"], "", 1, "", Begins(refused("22"))),
    (["run", "--history", "--why"], COUNT + "x = 1\n", 1, "", Begins(refused("22"))),
    (["run", "--why"], COUNT.ljust(LIMIT + 1), 1, "", refused("23")),
]

NAMES = ["script", "trace", "outcomes", "talk", "run", "check"]
# How many words all help may have.
WORDS = 1900
AT_TERMINAL = [
    (["script"], refused("16 at line 1") + "memory wanted first\n"),
    (["outcomes", "bad"], refused("17 at line 1") + "word 2: a number from 1 to 1024 wanted\n"),
    # of a large script only where it is asked for
    (["script", "--large"], refused("16 at line 1")),
    (["check", "--large"], refused("21 at line 1") + "an early end: scidump 1 or 2 wanted\n"),
    (["check", "missing"], READ + "missing: no such file\n"),
]
