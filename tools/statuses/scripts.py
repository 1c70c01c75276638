"""What `script` and `trace` read and write."""

from kinds import AT_LIMIT, CLOSED, FOLDER, FULL, LIMIT, READ, UNREAD, USAGE, WRITE
from kinds import Begins, Broken, Drawn, Filled, Little, Page, Traced, WholePage, refused

ROW = "memory 3 1\nload 0 0 0\ndone 0\nload 1 0 0\ndone 1\nload 2 0 0\ndone 2\nlist 0\n"
TEXT = (
    "node 0 read 0 stamp 0\nnode 1 read 0 stamp 0\nnode 2 read 0 stamp 0\n"
    "line 0 FRESH 2: 2 HEAD_FRESH, 1 MID_VALID, 0 TAIL_VALID\n"
)
UNENDED = "memory 2 1\nstore 0 0 0 5\ndone 0\nstore 0 0 0 6\nturn 0\nload 1 0 0\ndone 1\n"


def largest():
    """The largest script, with an opening for each line, and its text."""
    lines = ["memory 64 1024"] + [f"open {it} " + " ".join([str(it)] * 9) for it in range(1024)]
    text = []
    for reader in range(40):
        for line in range(1024):
            node = (reader + line) % 64
            lines += [f"load {node} {line} 7", f"done {node}"]
            text.append(f"node {node} read {line} stamp {line}\n")
    script = "\n".join(lines) + "\n#"
    listed = ", ".join(["39 HEAD_FRESH", *(f"{it} MID_VALID" for it in range(38, 0, -1)), "0 TAIL_VALID"])
    return script.ljust(LIMIT - len("\nlist 0\n")) + "\nlist 0\n", "".join(text) + f"line 0 FRESH 39: {listed}\n"


LARGEST, ITS_TEXT = largest()


def widest():
    """A script in which as many nodes as there may be share a line, until the one in the middle writes it; and its text."""
    nodes = range(1024)
    script = [f"load {node} 0 0\ndone {node}\n" for node in nodes]
    text = [f"node {node} read 0 stamp 0\n" for node in nodes]
    listed = ", ".join(["1023 HEAD_FRESH", *(f"{node} MID_VALID" for node in range(1022, 0, -1)), "0 TAIL_VALID"])
    return (
        f"memory 1024 1\n{''.join(script)}list 0\ntag 0 512\nstore 512 0 0 5\ndone 512\nlist 0\n",
        f"{''.join(text)}line 0 FRESH 1023: {listed}\ntag 0 512 MID_VALID forw 511 back 513\n"
        "node 512 wrote stamp 1\nline 0 GONE 512: 512 ONLY_DIRTY\n",
    )


WIDEST, WIDEST_TEXT = widest()

FILES = {
    "row": ROW,
    "bad": "memory 0 1\n",
    "long": AT_LIMIT + " ",
    "limit": AT_LIMIT,
    "largest": LARGEST,
    "-row": ROW,
}

HELP = """\
A model of cache coherence by sharing lists.

Usage: scisim <COMMAND>

Commands, and whom they serve:
  script """

# The whole program's, and those of `script`.
CASES = [
    ([], ROW, 2, "", USAGE),
    (["nonsense"], ROW, 2, "", USAGE),
    (["--help"], "", 0, Begins(HELP), ""),
    (["--version"], "", 0, "scisim 0.1.0\n", ""),
    (["--help"], "", 1, FULL, WRITE),
    (["nonsense"], "", 2, "", CLOSED),
    (["script"], ROW, 0, TEXT, ""),
    (["script", "row"], "", 0, TEXT, ""),
    (["script", "row"], "memory 0 1\n", 0, TEXT, ""),
    (["script", "./row"], CLOSED, 0, TEXT, ""),
    (["script", "--", "-row"], "", 0, TEXT, ""),
    (["script", "largest"], "", 0, ITS_TEXT, ""),
    (["script"], LARGEST, 0, ITS_TEXT, ""),
    (["script"], "memory 1 1", 0, "", ""),
    (["script"], Little(ROW), 0, TEXT, ""),
    (["script", "largest"], Little(), 1, "", refused("7")),
    (["script", "missing"], ROW, 1, "", READ),
    (["script", ""], ROW, 1, "", READ),
    (["script", "folder"], ROW, 1, "", READ),
    (["script", "row/row"], ROW, 1, "", READ),
    (["script", b"\xff"], ROW, 1, "", READ),
    (["script"], CLOSED, 1, "", READ),
    (["script"], FOLDER, 1, "", READ),
    (["script"], "", 1, "", refused("16 at line 1")),
    (["script", "bad"], ROW, 1, "", refused("17 at line 1")),
    (["script"], "memory 1 1\nlode 0 0 0", 1, "", refused("16 at line 2")),
    (["script"], "memory 1 1\nlist 0\nturn 0", 1, "line 0 HOME\n", refused("16 at line 3")),
    (["script"], "\n", 1, "", refused("16 at line 2")),
    (["script"], "memory 0 1", 1, "", refused("17 at line 1")),
    (["script"], "memory 1025 1\n", 1, "", refused("17 at line 1")),
    (["script"], "memory 1 1025\n", 1, "", refused("17 at line 1")),
    (
        ["script"],
        "memory 1024 1\nload 1023 0 0\ndone 1023\nlist 0\n",
        0,
        "node 1023 read 0 stamp 0\nline 0 FRESH 1023: 1023 ONLY_FRESH\n",
        "",
    ),
    (["script"], "memory 1024 1\nload 1024 0 0\n", 1, "", refused("17 at line 2")),
    (["script"], WIDEST, 0, WIDEST_TEXT, ""),
    (["script"], "memory 1 1\nload 0 0 8", 1, "", refused("17 at line 2")),
    (["script"], "memory 1 1\nturn 0", 1, "", refused("16 at line 2")),
    (["script"], "memory 1 1\ndone 0", 1, "", refused("16 at line 2")),
    (["script"], "memory 1 1\nload 0 0 0\nload 0 0 0", 1, "", refused("16 at line 3")),
    (["script"], "memory 1 1\nlist 0\nopen 0 0 0 0 0 0 0 0 0 0", 1, "", refused("16 at line 3")),
    (["script"], UNENDED, 1, "node 0 wrote stamp 1\n", refused("18 at line 7")),
    (
        ["script"],
        UNENDED.replace("done 1\n", "rest\nend\nrest\nend\n"),
        0,
        "node 0 wrote stamp 1\nnode 0 wrote stamp 2\nnode 1 read 6 stamp 2\n",
        "",
    ),
    (["script"], "memory 1 1\nrest 0", 1, "", refused("16 at line 2")),
    (["script"], "memory 1 1\nlist 0\nend 0", 1, "", refused("16 at line 3")),
    (["script"], "memory 1 2\ncapacity 1\nresidents 0\n", 0, "node 0 residents\n", ""),
    (["script"], "memory 1 2\ncapacity 0\n", 1, "", refused("17 at line 2")),
    (["script", "limit"], "", 1, "", refused("16 at line 2")),
    (["script", "long"], "", 1, "", refused("23")),
    (["script"], AT_LIMIT, 1, "", refused("16 at line 2")),
    (["script"], AT_LIMIT + "x", 1, "", refused("23")),
    (["script"], ROW, 1, CLOSED, WRITE),
    (["script", "row"], "", 1, FULL, WRITE),
    (["script", "row"], "", 1, UNREAD, WRITE),
    (["script", "largest"], "", 1, FULL, WRITE),
    (["script"], UNENDED, 1, FULL, WRITE),
    (["script"], "memory 1 1", 0, FULL, ""),
    (["script", "missing"], "", 1, FULL, READ),
    (["script", "missing"], "", 1, "", CLOSED),
    (["script", "row", "row"], ROW, 2, "", USAGE),
    (["script", "--nonsense"], ROW, 2, "", USAGE),
    (["script", "--help"], "", 0, Begins("Runs a script\n\nUsage: scisim script [OPTIONS] [FILE]\n"), ""),
]

SCRIPTS = [it for it in CASES if it[0][:1] == ["script"] and it[0] != ["script", "--help"]]

ONE_TURN = "memory 1 1\nload 0 0 0\nturn 0\n"

# What `script` does `trace` does, with lines of turns on standard output.
CASES += [
    (["trace", *arguments[1:]], given, status, Traced(out) if isinstance(out, str) else out, error)
    for arguments, given, status, out, error in SCRIPTS
] + [
    (["trace"], ONE_TURN, 0, "# node 0 line 0 load: Queue(none) Done; Queueing(none); HOME\n", ""),
    (["trace", "--help"], "", 0, Begins("Says of each turn of a script what it did\n\nUsage: scisim trace [OPTIONS] [FILE]\n"), ""),
]

# And so does --page, as a page on standard output; it has one to write where the script's text is empty.
CASES += [
    (["trace", "--page", *arguments[1:]], given, status, (Drawn if status else Page)(out) if isinstance(out, str) else out, error)
    for arguments, given, status, out, error in SCRIPTS
    if status or isinstance(out, str)
] + [
    (["trace", "--page"], "memory 1 1", 1, FULL, WRITE),
    (["trace", "--page"], "memory 1 1\n", 0, WholePage(""), ""),
    (["trace", "--page"], "memory 1 1\nlist 0\n", 0, WholePage("line 0 HOME\n"), ""),
    (["trace", "--page"], ONE_TURN, 0, Begins("<!DOCTYPE html>\n"), ""),
]

TALKED = (
    "ok\nok\nnode 0 read 0 stamp 0\nok\nok\nnode 1 read 0 stamp 0\nok\nok\nnode 2 read 0 stamp 0\nok\n"
    "line 0 FRESH 2: 2 HEAD_FRESH, 1 MID_VALID, 0 TAIL_VALID\nok\n"
)

# `talk` answers each line, refused ones too.
CASES += [
    (["talk"], ROW, 0, TALKED, ""),
    (["talk"], "", 0, "", ""),
    (["talk"], "list 0\nmemory 0 1\nmemory 1 1\nmemory 1 1\nlist 0", 0, "refused 16\nrefused 17\nok\nok\nline 0 HOME\nok\n", ""),
    (["talk"], UNENDED + "done 0\n", 0, "ok\nok\nnode 0 wrote stamp 1\nok\nok\nok\nok\nrefused 18\nnode 0 wrote stamp 2\nok\n", ""),
    (["talk"], AT_LIMIT + "\n" + AT_LIMIT + " \n" + ROW, 0, "ok\nrefused 16\n" + TALKED, ""),
    # More than 1,000 reads: a talk has no end but that of its input.
    (["talk"], ("#" + " " * 4094 + "\n") * 1500 + ROW, 0, "ok\n" * 1500 + TALKED, ""),
    (["talk"], Broken("memory 1 1\nlist 0\nlist"), 1, "ok\nline 0 HOME\nok\n", READ),
    (["talk"], FOLDER, 1, "", READ),
    (["talk"], CLOSED, 1, "", READ),
    (["talk"], ROW, 1, FULL, WRITE),
    (["talk"], ROW, 1, UNREAD, WRITE),
    (["talk"], ROW, 1, CLOSED, WRITE),
    (["talk"], ROW, 0, Filled(TALKED), ""),
    (["talk"], ROW, 1, Filled(TALKED[:-1]), WRITE),
    (["talk", "row"], ROW, 2, "", USAGE),
    (["talk", "--help"], "", 0, Begins("Answers a script's commands one by one\n\nUsage: scisim talk [OPTIONS]\n"), ""),
]

# Scripts that end in each way: `trace` does with them what `script` does, as text and as a page.
ALIKE = [
    ROW,
    UNENDED,
    "",
    "memory 1 1",
    "memory 0 1",
    "memory 1 1\nlode 0 0 0\n",
    "memory 1 1\nload 0 0 0\ndone 0\nlist 0\n",
    "memory 2 1\nstore 0 0 0 5\ndone 0\nload 1 0 0\ndone 1\ntag 0 1\n",
    "memory 1 1\nload 0 0 0\nturn 0\nload 0 0 0\n",
    "memory 1 1\nload 0 0 8\n",
    "memory 1 1\nlist 0\nturn 0",
    "memory 2 1\nload 0 0 0\nturn 0\nload 0 0 0\nturn 0\n",
    "memory 2 1\nload 0 0 0\nturn 0\nturn 0\nload 1 0 0\nturn 1\ndone 1\n",
    "memory 1 2\ncapacity 1\nload 0 0 0\ndone 0\nload 0 1 0\ndone 0\nresidents 0\nlist 0\ntag 1 0\n",
    "memory 1 1\nopen 0 18446744073709551615 1 2 3 4 5 6 7 8\nadd 0 0 7 1\ndone 0\nload 0 0 7\ndone 0\nevict 0 0\ndone 0\n",
    "memory 2 1\nstore 0 0 0 5\ndone 0\nstore 0 0 0 6\nturn 0\nload 1 0 0\ndone 1\nlist 0\n",
]
