"""Talks: each line is answered by itself, which tells whether a turn has ended its call."""
import re

from reader import COMMANDS, Fault, Place, is_skipped, lines_of
from running import LIMIT

BEGINS = (b"load", b"store", b"add", b"evict")
ANSWER = re.compile(rb"((?:(?!ok\n|refused ).*\n)*)(ok|refused \d+)\n")
ENDED = re.compile(rb"(?m)^node (\d+) (?:read|wrote|out|refused)\b")
UNENDED = re.compile(r"node \d+ (waits for node \d+|has not ended its call)")


class Said(Place):
    """What stands in front of a line that is said: `memory` may come again, until a command of a desk has."""

    def is_in_time(self, name):
        return name == b"memory" and self.stand != COMMANDS or super().is_in_time(name)


class Talk:
    """Where a talk stands, and which nodes have a call open."""

    def __init__(self):
        self.place, self.calls = Said(), set()

    def fault(self, number, line):
        """What is wrong with a line, or None."""
        if len(line) > LIMIT:
            return Fault(16, number, "a line of more than 1048576 bytes")
        fault = None if is_skipped(line) else self.place.fault(number, line)
        if fault or is_skipped(line):
            return fault
        name, *words = line.split()
        if name not in (*BEGINS, b"turn", b"done") or (name in BEGINS) != (int(words[0]) in self.calls):
            return None
        return Fault(16, number, f"node {int(words[0])} has {'a' if name in BEGINS else 'no'} call open")

    def take(self, line, printed):
        """Notes a line that was taken, and what it printed."""
        if is_skipped(line):
            return
        name, numbers = self.place.passed(line)
        if name in BEGINS:
            self.calls.add(numbers[0])
        elif name in (b"turn", b"done", b"end"):
            self.calls -= {int(it) for it in ENDED.findall(printed)}


def heard(run, text):
    """What is wrong with the answers, or nothing; the first line that is refused, or None; and what was printed in front of it."""
    status, out, error = run("talk", "--why")
    lines, answers, whys, talk = lines_of(text), ANSWER.findall(out), iter(error.decode().splitlines()), Talk()
    if status or len(answers) != len(lines) or b"".join(b"%s%s\n" % it for it in answers) != out:
        return f"talk: {status} {out} of {len(lines)} lines", None, b""
    first, before = None, []
    for number, (line, (printed, answer)) in enumerate(zip(lines, answers), 1):
        told = None if answer == b"ok" else Fault(int(answer.split()[1]), number, next(whys, ""))
        wanted = talk.fault(number, line)
        is_unended = told and told.number == 18 and line.split()[0] == b"done" and UNENDED.fullmatch(told.why)
        if told != wanted and (wanted or not is_unended) or told and printed:
            return f"talk: {told} behind {printed}, and not {wanted}", None, b""
        if not told:
            talk.take(line, printed)
        first = first or told
        before += [printed] * (not first)
    return "".join(whys), first, b"".join(before)
