"""Cases that are wrong in one place each, by the kinds of texts that they want, and programs that answer wrongly in little memory: the
tool must tell each of them."""

import shortages
from kinds import FULL, READ, WRITE
from kinds import Begins, Broken, Drawn, Filled, Lawful, Legal, Little, Page, Traced, WholePage, refused
from runs import ALONE, COUNT
from scripts import ROW, TEXT

CASES = [
    (["script"], ROW, 1, TEXT, ""),
    (["script"], ROW, 0, TEXT[:-1], ""),
    (["script"], ROW, 0, TEXT + "\n", ""),
    (["script"], ROW, 0, "", ""),
    (["script"], ROW, 0, TEXT, "\n"),
    (["script"], "", 1, "", refused("16 at line 2")),
    (["script"], "", 1, "", ""),
    (["script"], ROW, 0, Begins(TEXT[1:]), ""),
    (["script"], Broken(ROW), 1, "", WRITE),
    (["script"], Little(ROW), 1, "", refused("7")),
    (["script"], ROW, 1, FULL, READ),
    (["script"], ROW, 0, Filled(TEXT[:-1]), ""),
    (["script"], ROW, 1, Filled(TEXT[:-1]), ""),
    (["script"], ROW, 0, Filled(TEXT.replace("node", "NODE")), ""),
    (["trace"], ROW, 0, TEXT, ""),
    (["trace"], ROW, 0, Traced(TEXT[:-1]), ""),
    (["trace", "--page"], ROW, 0, Traced(TEXT), ""),
    (["trace", "--page"], ROW, 0, Drawn(TEXT[:-1]), ""),
    (["trace", "--page"], ROW, 0, Page(TEXT[:-1]), ""),
    (["trace", "--page"], ROW, 0, WholePage(TEXT), ""),
    (["trace", "--page"], "", 1, Page(""), refused("16 at line 1")),
    (["script"], ROW, 0, Page(TEXT), ""),
    (["run"], COUNT, 0, Lawful("count 4000\n"), ""),
    (["run"], ALONE, 0, Lawful("count 4\n"), ""),
    (["run"], ALONE, 0, Legal("count 3\n"), ""),
    (["run", "--history"], ALONE, 0, Legal("scihistory 1 2 1\n"), ""),
]

LOW, LEAST, WHOLE = 1_000_000, 50_000_000, "one\ntwo\n"


def program(least=LEAST, status=1, said="one\n", error=refused("7"), whole=WHOLE):
    """A program that has enough memory from there on, and what it answers in less."""

    def serve(command, given):
        memory = given.memory if isinstance(given, Little) else shortages.AMPLE
        return (0, whole, "") if memory >= least else (status, "" if memory == LOW else said, error)

    return serve


# How a program answers in little memory, and whether that is right.
SHORT = [
    ({}, True),
    ({"least": LOW}, False),
    ({"least": 2 * shortages.AMPLE}, False),
    ({"status": 2}, False),
    ({"error": refused("16 at line 1")}, False),
    ({"error": refused("26")}, False),
    ({"said": ""}, False),
    ({"said": "on"}, False),
    ({"said": "two\n"}, False),
    ({"said": WHOLE}, False),
    ({"whole": "one\n"}, False),
]


def talker(kept):
    """A program that keeps so many bytes for each command of a talk."""
    answers = dict([shortages.FEW, shortages.MANY])

    def serve(command, given):
        is_enough = given.memory >= LEAST + kept * given.count("\n")
        return 0, answers[str(given)] if is_enough else "refused 7\n", ""

    return serve


# What is kept for each command, and whether that is nothing.
KEPT = [(0, True), (8, False), (5_000_000, False)]


def short():
    """The programs of SHORT and KEPT that are taken for what they are not."""
    for kept, is_nothing in KEPT:
        wrong = shortages.keeps(talker(kept), shortages.FEW, shortages.MANY)
        yield (["talk"], f"{kept} bytes a command", [] if is_nothing == (not wrong) else [f"it was told {wrong}"])
    for how, is_right in SHORT:
        wrong = shortages.faults(program(**how), LOW, "script", "", WHOLE, True)
        yield (["little memory"], str(how), [] if is_right == (not wrong) else [f"it was told {wrong}"])
