"""Runs that get less memory than they need, runs with room for few threads' stacks, and talks that get no more than they need."""

from dumps import ITS_LISTS, LARGE_DUMP
from kinds import LIMIT, Crowded, Either, Little, refused
from outcomes import STORE_AND_LOADS
from runs import COUNT
from scripts import ROW

# An address space that is ample, and how near to the least one it is tried.
AMPLE, STEP = 200_000_000, 65_536


def growing():
    """A script in which eight nodes name more and more lines, so its run itself takes memory; and its text."""
    script, text = ["memory 8 1024\n"], []
    for line in range(1024):
        for node in range(8):
            script.append(f"load {node} {line} 0\ndone {node}\n")
            text.append(f"node {node} read 0 stamp 0\n")
    return "".join(script), "".join(text)


GROWING, ITS_TEXT = growing()
ONE = COUNT.replace("nodes = 4", "nodes = 1")
# a count keeps 144 bytes of each of its adds: 300,000,000 bytes hold one node's and the other's stack, so both threads start, and not both's
MILLIONS = COUNT.replace("nodes = 4", "nodes = 2").replace("adds = 1000\n", "adds = 1000000\n")


def summed(phases):
    """What becomes of a tile of a stencil: each cell is the sum of itself and its neighbours, modulo 2^64."""
    cells = [1, 0, 0, 0, 0, 0, 0]
    for _ in range(phases):
        cells = [sum(cells[max(place - 1, 0) : place + 2]) % 2**64 for place in range(7)]
    return "cells " + " ".join(map(str, cells)) + "\n"


# each node waits for its neighbours' tiles, also that of the first whose thread isn't started; where one that waits wants memory of its
# own at that moment, its refusal comes first
AWAITED = f'work = "stencil"\nnodes = 64\ncapacity = 3\nphases = 1\ncells = {64 * 7 * [0]}\n'
PHASES = 'work = "stencil"\nnodes = 1\ncapacity = 2\nphases = 100000\ncells = [1, 0, 0, 0, 0, 0, 0]\n'

# A command, its input, the text by hand where it is known, and whether something is printed before the last growth.
SERVED = [
    ("script", GROWING, ITS_TEXT, True),
    ("trace", GROWING, None, True),
    ("trace --page", GROWING, None, True),
    ("run", ONE.ljust(LIMIT, "\n"), "count 1000\n", False),
    ("check", LARGE_DUMP, ITS_LISTS, False),
    ("outcomes", STORE_AND_LOADS, None, False),
]

# 64 nodes want more stack than there is; one has room for its thread. The largest memory fits in 150,000,000 bytes. Where memory ends
# under way, all nodes stop; a stencil keeps nothing, unless its history is asked for.
CASES = [
    (["script"], Little("memory 1024 1024\nlist 1023\n", 150_000_000), 0, "line 1023 HOME\n", ""),
    (["run"], Crowded(COUNT.replace("nodes = 4", "nodes = 64")), 1, "", refused("26")),
    (["run"], Crowded(AWAITED), 1, "", Either((refused("7"), refused("26")))),
    (["run"], Crowded(ONE), 0, "count 1000\n", ""),
    (["run"], Little(MILLIONS, 300_000_000), 1, "", refused("7")),
    (["run", "--history"], Little(MILLIONS, 300_000_000), 1, "", refused("7")),
    (["run"], Little(PHASES, 60_000_000), 0, summed(100_000), ""),
    (["run", "--history"], Little(PHASES, 60_000_000), 1, "", refused("7")),
]


def answers(serve, command, given, low):
    """What a command answers in this memory, in ample memory, and nearer and nearer to the least that is enough.

    `serve` gives its status, what it said and its error.
    """
    found = [serve(command, Little(given, memory)) for memory in (low, AMPLE)]
    high = AMPLE
    while high - low > STEP:
        memory = (low + high) // 2
        found.append(serve(command, Little(given, memory)))
        low, high = (low, memory) if found[-1][0] == 0 else (memory, high)
    return high, found


def least(serve):
    """The memory in which a small script is served, and hardly more."""
    return answers(serve, "script", ROW, 1_000_000)[0]


def is_told(answer, wanted, refusals):
    """Whether all was served, or a refusal is told behind whole lines at the front of what was wanted."""
    status, said, error = answer
    if status == 0:
        return (said, error) == (wanted, "")
    is_front = wanted.startswith(said) and (not said or said.endswith("\n")) and said != wanted
    return status == 1 and error in refusals and is_front


def faults(serve, low, command, given, text, prints):
    """What is wrong with the answers of a command, of which that in this memory and that in ample memory come first."""
    found = answers(serve, command, given, low)[1]
    wanted = text or serve(command, given)[1]
    # a thread's stack is memory too
    refusals = [refused("7"), refused("26")] if command == "run" else [refused("7")]
    wrong = [f"status {it[0]}, {it[2]!r}, behind {len(it[1])} bytes: {it[1][-80:]!r}" for it in found if not is_told(it, wanted, refusals)]
    if found[0] != (1, "", refused("7")) or found[1][0] != 0:
        wrong.append("in little memory it must be refused, and in ample memory served")
    if any(status != 0 and said for status, said, _ in found) != prints:
        wrong.append(f"before a refusal {'nothing' if prints else 'something'} was printed")
    return wrong


# What is said again and again of two nodes and a line that come back to where they stood, and what is answered the time after so many.
ROUND = "load 0 0 0\ndone 0\nstore 1 0 1 5\ndone 1\nlist 0\ntag 0 0\nresidents 1\nlist 9\nlode\n# none\n"


def talk(rounds):
    """A talk of so many rounds, and its answers."""
    said = ["memory 2 1\n"] + [ROUND] * rounds
    answers = ["ok\n"]
    for stamp in range(rounds):
        answers.append(
            f"ok\nnode 0 read 0 stamp {stamp}\nok\nok\nnode 1 wrote stamp {stamp + 1}\nok\nline 0 GONE 1: 1 ONLY_DIRTY\nok\n"
            "tag 0 0 INVALID forw - back -\nok\nnode 1 residents 0\nok\nrefused 17\nrefused 16\nok\n"
        )
    return "".join(said), "".join(answers)


FEW, MANY = talk(10), talk(50_000)
# The C library's heap grows by steps of 132 KiB: many commands may need one step more.
SLACK = 262_144


def keeps(serve, few, many):
    """What is wrong where a talk of many commands is given the memory that one of few needs, and SLACK."""
    low, high = 1_000_000, AMPLE
    while high - low > STEP:
        memory = (low + high) // 2
        is_enough = serve("talk", Little(few[0], memory)) == (0, few[1], "")
        low, high = (low, memory) if is_enough else (memory, high)
    if high == AMPLE:
        return ["a talk of few commands needs more than ample memory"]
    status, said, error = serve("talk", Little(many[0], high + SLACK))
    if (status, said, error) == (0, many[1], ""):
        return []
    return [f"in the memory of few commands many end with {status}, {error!r}, behind {len(said)} bytes: {said[-80:]!r}"]
