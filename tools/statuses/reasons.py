"""What the commands say of a refusal where `--why` asks for more."""

from kinds import AT_LIMIT, CLOSED, FULL, READ, WRITE
from kinds import Drawn, Little, Traced, refused
from scripts import LARGEST, ROW, TEXT, UNENDED

# A script, the number and line of its refusal, the reason, and what it prints before.
REASONS = [
    ("", "16 at line 1", "memory wanted first", ""),
    ("# nothing\n", "16 at line 2", "memory wanted first", ""),
    ("load 0 0 0\nmemory 1 1\n", "16 at line 1", "memory wanted first", ""),
    ("memory 1 1\nlode 0 0 0\n", "16 at line 2", "unknown command", ""),
    ("memory 1 1\nlist\x010\n", "16 at line 2", "a byte that is no printable ASCII", ""),
    ("memory 1 1\nevict 0\n", "16 at line 2", "3 words wanted, 2 found", ""),
    ("memory 1 1\nload 0 0\n", "16 at line 2", "4 words wanted, 3 found", ""),
    ("memory 1 1\nstore 0 0 0 1 2\n", "16 at line 2", "5 words wanted, 6 found", ""),
    ("memory 1 1\nopen 0 0\n", "16 at line 2", "11 words wanted, 3 found", ""),
    ("memory 1\n", "16 at line 1", "3 words wanted, 2 found", ""),
    ("memory 1 1\nmemory 1 1\n", "16 at line 2", "too late for this command", ""),
    ("memory 1 1\nopen 0 0 0 0 0 0 0 0 0 0\ncapacity 1\n", "16 at line 3", "too late for this command", ""),
    ("memory 1 1\nlist 0\nopen 0 0 0 0 0 0 0 0 0 0\n", "16 at line 3", "too late for this command", ""),
    ("memory 1025 1\n", "17 at line 1", "word 2: a number from 1 to 1024 wanted", ""),
    ("memory 1 1\ncapacity 0\n", "17 at line 2", "word 2: a number from 1 to 1024 wanted", ""),
    ("memory 1 1\nload 000000000000000000000 0 0\n", "17 at line 2", "word 2: at most 20 digits wanted", ""),
    ("memory 1 1\nadd 0 0 0 100000000000000000000\n", "17 at line 2", "word 5: at most 20 digits wanted", ""),
    ("memory 1 1\nload 0 0 8\n", "17 at line 2", "word 4: a number from 0 to 7 wanted", ""),
    ("memory 2 3\nload 2 0 0\n", "17 at line 2", "word 2: a number from 0 to 1 wanted", ""),
    ("memory 1 3\nload 1 0 0\n", "17 at line 2", "word 2: 0 wanted", ""),
    ("memory 3 1\nlist 1\n", "17 at line 2", "word 2: 0 wanted", ""),
    ("memory 2 3\ntag 3 2\n", "17 at line 2", "word 2: a number from 0 to 2 wanted", ""),
    ("memory 2 3\nturn x\n", "17 at line 2", "word 2: a number from 0 to 1 wanted", ""),
    ("memory 1 1\nadd 0 0 0 18446744073709551616\n", "17 at line 2", "word 5: a number from 0 to 18446744073709551615 wanted", ""),
    ("memory 4 1\nload 3 0 0\nload 3 0 0\n", "16 at line 3", "node 3 has a call open", ""),
    ("memory 1 1\nlist 0\nturn 0\n", "16 at line 3", "node 0 has no call open", "line 0 HOME\n"),
    ("memory 2 1\ndone 1\n", "16 at line 2", "node 1 has no call open", ""),
    (UNENDED, "18 at line 7", "node 1 waits for node 0", "node 0 wrote stamp 1\n"),
    # A head that is to leave waits for the newcomer in front of it.
    (
        "memory 2 1\nstore 0 0 0 7\ndone 0\nevict 0 0\nturn 0\nload 1 0 0\nturn 1\nturn 1\nturn 0\ndone 0\n",
        "18 at line 10",
        "node 0 waits for node 1",
        "node 0 wrote stamp 1\n",
    ),
    # Its victim is another node's to purge first.
    (
        "memory 2 2\ncapacity 1\nload 1 0 0\ndone 1\nload 0 0 0\ndone 0\nstore 0 0 0 5\nturn 0\nturn 0\nturn 0\nturn 0\nload 1 1 0\ndone 1\n",
        "18 at line 13",
        "node 1 waits for node 0",
        "node 1 read 0 stamp 0\nnode 0 read 0 stamp 0\n",
    ),
]

# Settings, and why they are refused 22.
SETTINGS = [
    ("", "no work"),
    ('work = "x"\n', 'line 1: work = "x": stencil, ring or count wanted'),
    ('work = "count"\nnodes = 1\n', "no adds"),
    ('work = "count"\n\nnodes = 65\n', "line 3: nodes = 65: 1 to 64 wanted"),
    ('work = "ring"\nlnes = 2\n', 'line 2: no key "lnes"; is it lines?'),
    ('work = "count"\nnodes = 1.5\n', "line 2: nodes: 1 to 64 wanted, float found"),
]
# A dump or a history, the line of its refusal 21, and the reason.
ROWS = [
    ("", 1, "an early end: scidump 1 or 2 wanted"),
    ("scidump 2 0 1\n", 1, "word 3: a number from 1 to 1024 wanted, 0 found"),
    ("scidump 2 2 1\r\n", 1, "word 4: a number from 1 to 1024 wanted, 1\\r found"),
    ("scidump 2 2 1\nend\n", 2, "line 0 wanted, end found"),
    ("scidump 2 2 1\nline 0 000000000000000 0 0 0 0 0 0 0 0 0\n", 2, "word 3: 16 hexadecimal digits in lower case wanted, 000000000000000 found"),
    ("scihistory 2 1 1\n", 1, "word 2: 1 wanted, 2 found"),
    ("scihistory 1 1 1\nclosed 0\n", 2, "line 0 wanted, closed found"),
]
HIT, LONG = "Done or Busy (behind a tag in 16 digits also Missed WORD)", "a number from 0 to 18446744073709551615"
# A log, the number and line of its refusal, and the reason.
LOGS = [
    ("memory\n", "16 at line 1", "column 7: a space wanted, the end found"),
    ("memory 0 3\n", "17 at line 1", 'column 8: a number from 1 to 1024 wanted, "0" found'),
    ("memory 4 1025\n", "17 at line 1", 'column 10: a number from 1 to 1024 wanted, "1025" found'),
    ("memory 4\n", "16 at line 1", "column 9: a space wanted, the end found"),
    ("memory 04 3\n", "16 at line 1", 'column 8: a number from 1 to 1024 wanted, "04" found'),
    ("memory 4 3 5\n", "16 at line 1", "column 11: the end of the line wanted, a space found"),
    ("memory 4 3\n# a comment\n\nlode\n", "16 at line 4", 'column 1: open L or node N wanted, "lode" found'),
    ("memory 4 3\nnode 0 line 0 Look Done\nopen 0 0 0 0 0 0 0 0 0 0\n", "16 at line 3", 'column 1: node N wanted, "open" found'),
    ("memory 4 3\nopen\n", "16 at line 2", "column 5: a space wanted, the end found"),
    ("memory 4 3\nopen 3 0 0 0 0 0 0 0 0 0\n", "17 at line 2", 'column 6: a number from 0 to 2 wanted, "3" found'),
    ("memory 4 3\nopen 0 0 0 0 0 0 0 0 0\n", "16 at line 2", "column 23: a space and a number wanted, the end found"),
    ("memory 4 3\nopen 0\n", "16 at line 2", "column 7: a space and a number wanted, the end found"),
    ("memory 4 3\nnode 4 line 0 Look Done\n", "17 at line 2", 'column 6: a number from 0 to 3 wanted, "4" found'),
    ("memory 1 3\nnode 4 line 0 Look Done\n", "17 at line 2", 'column 6: 0 wanted, "4" found'),
    ("memory 4 3\nnode 0 line 3 Look Done\n", "17 at line 2", 'column 13: a number from 0 to 2 wanted, "3" found'),
    ("memory 4 3\nnode 0line 0 Look Done\n", "16 at line 2", 'column 7: a space wanted, "line" found'),
    ("memory 4 3\nnode 0 lime 0 Look Done\n", "16 at line 2", 'column 8: line L wanted, "lime" found'),
    ("memory 4 3\nnode 0 line 0\n", "16 at line 2", "column 14: a space wanted, the end found"),
    ("memory 4 3\nnode 0 line 0 Loop Done\n", "16 at line 2", 'column 15: an event wanted, "Loop" found'),
    ("memory 4 3\nnode 0 line 0 Löok Done\n", "16 at line 2", 'column 15: an event wanted, "L" found'),
    ("memory 4 3\nnode 0 line 0 öl Done\n", "16 at line 2", "column 15: an event wanted, byte 195 found"),
    # a word of more than 20 bytes is told by how many it has
    ("memory 4 3\nnode 0 line 0 Abcdefghijklmnopqrst Done\n", "16 at line 2", 'column 15: an event wanted, "Abcdefghijklmnopqrst" found'),
    ("memory 4 3\nnode 0 line 0 Abcdefghijklmnopqrstu Done\n", "16 at line 2", "column 15: an event wanted, 21 bytes found"),
    ("memory 18446744073709551616 3\n", "17 at line 1", 'column 8: a number from 1 to 1024 wanted, "18446744073709551616" found'),
    ("memory 100000000000000000000 3\n", "17 at line 1", "column 8: a number from 1 to 1024 wanted, 21 bytes found"),
    ("memory 4 3\nnode 0 line 0 Looks Done\n", "16 at line 2", 'column 19: a space wanted, "s" found'),
    ("memory 4 3\nnode 0 line 0 Hold Done\n", "16 at line 2", "column 19: ( wanted, a space found"),
    ("memory 4 3\nnode 0 line 0 AttachFresh(4 ONLY_FRESH) Done\n", "17 at line 2", 'column 27: a number from 0 to 3 wanted, "4" found'),
    ("memory 4 3\nnode 0 line 0 AttachFresh(1 FRESH) Done\n", "16 at line 2", 'column 29: a tag wanted, "FRESH" found'),
    ("memory 4 3\nnode 0 line 0 AttachFresh(1) Done\n", "16 at line 2", 'column 28: a space wanted, ")" found'),
    ("memory 4 3\nnode 0 line 0 Hold(ONLY_FRESH Done\n", "16 at line 2", "column 30: ) wanted, a space found"),
    ("memory 4 3\nnode 0 line 0 Hold(ONLY_FRESH) Missed 0000000000000000\n", "16 at line 2", f'column 32: {HIT} wanted, "Missed" found'),
    ("memory 4 3\nnode 0 line 0 Hold(ONLY_FRESH) done\n", "16 at line 2", f'column 32: {HIT} wanted, "done" found'),
    ("memory 4 3\nnode 0 line 0 Queue(x) Done\n", "16 at line 2", 'column 21: a node or none wanted, "x" found'),
    ("memory 4 3\nnode 0 line 0 Requeue(none Done\n", "16 at line 2", "column 27: ) wanted, a space found"),
    ("memory 4 3\nnode 0 line 0 Written(x) Done\n", "16 at line 2", 'column 23: none or words wanted, "x" found'),
    ("memory 4 3\nnode 0 line 0 Written(none)Done\n", "16 at line 2", 'column 28: a space wanted, "Done" found'),
    ("memory 4 3\nnode 0 line 0 Written(words 1 2 3) Done\n", "16 at line 2", 'column 34: a space and a number wanted, ")" found'),
    ("memory 4 3\nnode 0 line 0 Look done\n", "16 at line 2", 'column 20: Done, Missed WORD or Busy wanted, "done" found'),
    ("memory 4 3\nnode 0 line 0 Look Done\r", "16 at line 2", "column 24: the end, or a space and a number wanted, byte 13 found"),
    ("memory 4 3\nnode 0 line 0 Look Done 1 2 3 4 x 6 7 8 9\n", "16 at line 2", f'column 33: {LONG} wanted, "x" found'),
    ("memory 4 3\nnode 0 line 0 Look Done 18446744073709551616\n", "16 at line 2", f'column 25: {LONG} wanted, "18446744073709551616" found'),
    ("memory 4 3\nnode 0 line 0 Look Done 1 2 3 4 5 6 7 8 9 \n", "16 at line 2", "column 42: the end of the line wanted, a space found"),
    ("memory 4 3\nnode 0 line 0 Look Missed\n", "16 at line 2", "column 26: a space wanted, the end found"),
    ("memory 4 3\nnode 0 line 0 Look Missed 12\n", "16 at line 2", 'column 27: 16 hexadecimal digits in lower case wanted, "12" found'),
    ("memory 4 3\nnode 0 line 0 Look Busy \n", "16 at line 2", "column 24: the end of the line wanted, a space found"),
    # of a faulty line what lacks is told, whatever its numbers are
    ("memory 1025 x\n", "16 at line 1", 'column 13: a number from 1 to 1024 wanted, "x" found'),
    ("memory 4 3\nopen 3 0 0 0 0 0 0 0 0\n", "16 at line 2", "column 23: a space and a number wanted, the end found"),
    ("memory 4 3\nnode 4 line 3 Loop Done\n", "16 at line 2", 'column 15: an event wanted, "Loop" found'),
    ("memory 4 3\nnode 4 line 3 AttachFresh(4 FRESH) Done\n", "16 at line 2", 'column 29: a tag wanted, "FRESH" found'),
    # of a faulty number the first
    ("memory 0 1025\n", "17 at line 1", 'column 8: a number from 1 to 1024 wanted, "0" found'),
    ("memory 4 3\nnode 4 line 3 AttachFresh(4 INVALID) Done\n", "17 at line 2", 'column 6: a number from 0 to 3 wanted, "4" found'),
    ("memory 4 3\nnode 3 line 3 AttachFresh(4 INVALID) Done\n", "17 at line 2", 'column 13: a number from 0 to 2 wanted, "3" found'),
]

ONE, ONE_TEXT = "memory 1 1\nload 0 0 0\nload 0 0 0\n", "16 at line 3"
OPEN = refused(ONE_TEXT) + "node 0 has a call open\n"
SAID = "load 0 0 0\nmemory 1 1\nturn 0\nlode\nload 0 0\nload 0 0 8\nload 0 0 0\nload 0 0 0\ndone 0\ndone 0\n"
ANSWERED = "refused 16\nok\nrefused 16\nrefused 16\nrefused 16\nrefused 17\nok\nrefused 16\nnode 0 read 0 stamp 0\nok\nrefused 16\n"
WHYS = (
    "memory wanted first\nnode 0 has no call open\nunknown command\n4 words wanted, 3 found\nword 4: a number from 0 to 7 wanted\n"
    "node 0 has a call open\nnode 0 has no call open\n"
)
# Each reason stands behind the answer that it is of.
MIXED = (
    "refused 16\nmemory wanted first\nok\nrefused 16\nnode 0 has no call open\nrefused 16\nunknown command\nrefused 16\n4 words wanted, 3 found\n"
    "refused 17\nword 4: a number from 0 to 7 wanted\nok\nrefused 16\nnode 0 has a call open\nnode 0 read 0 stamp 0\nok\nrefused 16\n"
    "node 0 has no call open\n"
)

CASES = [
    *[(["script", "--why"], script, 1, text, refused(rest) + why + "\n") for script, rest, why, text in REASONS],
    *[(["trace", "--why"], script, 1, Traced(text), refused(rest) + why + "\n") for script, rest, why, text in REASONS],
    *[(["trace", "--page", "--why"], script, 1, Drawn(text), refused(rest) + why + "\n") for script, rest, why, text in REASONS],
    *[(["outcomes", "--why"], script, 1, "", refused(rest) + why + "\n") for script, rest, why, _ in REASONS],
    *[(["outcomes", "--page", "--why"], script, 1, "", refused(rest) + why + "\n") for script, rest, why, _ in REASONS],
    *[([*run, "--why"], given, 1, "", refused("22") + why + "\n") for given, why in SETTINGS for run in (["run"], ["run", "--history"])],
    *[(["check", "--why"], given, 1, "", refused(f"21 at line {line}") + why + "\n") for given, line, why in ROWS],
    *[(["check", "--why"], given, 1, "", refused(rest) + why + "\n") for given, rest, why in LOGS],
    (["script", "--why"], ROW, 0, TEXT, ""),
    (["script", "--why", "row"], "", 0, TEXT, ""),
    (["script", "bad", "--why"], "", 1, "", refused("17 at line 1") + "word 2: a number from 1 to 1024 wanted\n"),
    (["trace", "--log", "--why"], ONE, 1, "memory 1 1\n", OPEN),
    (["script", "--why", "long"], "", 1, "", refused("23")),
    (["script", "--why"], AT_LIMIT, 1, "", refused("16 at line 2") + "memory wanted first\n"),
    (["script", "--why", "missing"], "", 1, "", READ + "missing: no such file\n"),
    (["script", "--why", "no\x1b[31m"], "", 1, "", READ + "no\\u{1b}[31m: no such file\n"),
    (["script", "--why"], CLOSED, 1, "", READ + "standard input: closed\n"),
    (["script", "--why"], ROW, 1, FULL, WRITE + "standard output: no space left\n"),
    (["script", "--why"], ONE, 1, "", CLOSED),
    (["script", "--why"], Little(LARGEST), 1, "", refused("7")),
    (["outcomes", "--why", "--most", "1"], "memory 1 1\nload 0 0 0\n", 1, "", "scisim: too many states\nturns lead to more than 1 states\n"),
    (["outcomes", "--page", "--most", "4", "--why"], "memory 1 1\nload 0 0 0\n", 1, "", "scisim: too many states\nturns lead to more than 4 states\n"),
    (["talk", "--why"], SAID, 0, ANSWERED, WHYS),
    (["talk", "--why"], AT_LIMIT + "xx\n" + AT_LIMIT + "x\n", 0, "refused 16\nrefused 16\n", "a line of more than 1048576 bytes\n" * 2),
    (["talk", "--why"], UNENDED, 0, "ok\nok\nnode 0 wrote stamp 1\nok\nok\nok\nok\nrefused 18\n", "node 1 waits for node 0\n"),
    # A carriage return is part of a line that has no end.
    (
        ["talk", "--why"],
        "memory 1 1\r\nlode\r\nlode\r",
        0,
        "ok\nrefused 16\nrefused 16\n",
        "unknown command\na byte that is no printable ASCII\n",
    ),
    (["talk", "--why"], "memory 1 1\nlode\nlist 0\n", 0, "ok\nrefused 16\nline 0 HOME\nok\n", CLOSED),
]
