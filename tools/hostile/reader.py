"""The commands of scripts: a second reader, written from docs/SCRIPTS.md and docs/REFUSALS.md, with the texts of sci_script's `Reason`."""
import re
from collections import namedtuple

from mutants import MOST

Fault = namedtuple("Fault", "number line why")
ARGUMENTS = {
    b"memory": ["nodes", "lines"],
    b"capacity": ["capacity"],
    b"open": ["line"] + ["value"] * 9,
    b"load": ["node", "line", "word"],
    b"store": ["node", "line", "word", "value"],
    b"add": ["node", "line", "word", "value"],
    b"evict": ["node", "line"],
    b"turn": ["node"],
    b"done": ["node"],
    b"rest": [],
    b"end": [],
    b"list": ["line"],
    b"tag": ["line", "node"],
    b"residents": ["node"],
}
NOTHING, MEMORY, OPENINGS, COMMANDS = range(4)
UNPRINTABLE = re.compile(rb"[^\t -~]")


def lines_of(text):
    """The lines of a text; a carriage return in front of a line feed belongs to neither."""
    *lines, last = text.split(b"\n")
    return [it.removesuffix(b"\r") for it in lines] + [last] * bool(last)


def is_skipped(line):
    """Whether a line is counted and says nothing."""
    return line.startswith(b"#") or not line.strip(b" \t")


class Place:
    """What stands in front of a line."""

    def __init__(self):
        self.stand, self.nodes, self.lines = NOTHING, 1, 1

    def is_in_time(self, name):
        """Whether the command may stand here."""
        stands = {b"memory": [NOTHING], b"capacity": [MEMORY], b"open": [MEMORY, OPENINGS]}
        return self.stand in stands.get(name, [MEMORY, OPENINGS, COMMANDS])

    def range_of(self, argument):
        """From and to which number an argument may be."""
        low = int(argument in ("nodes", "lines", "capacity"))
        return low, {"node": self.nodes - 1, "line": self.lines - 1, "word": 7, "value": MOST}.get(argument, 1024)

    def fault(self, number, line):
        """What is wrong with this line, or None."""
        if UNPRINTABLE.search(line):
            return Fault(16, number, "a byte that is no printable ASCII")
        name, *words = line.split()
        wanted = ARGUMENTS.get(name)
        if wanted is None:
            return Fault(16, number, "unknown command")
        if not self.is_in_time(name):
            return Fault(16, number, "too late for this command" if self.stand else "memory wanted first")
        if len(words) != len(wanted):
            return Fault(16, number, f"{len(wanted) + 1} words wanted, {len(words) + 1} found")
        for at, (argument, word) in enumerate(zip(wanted, words), 2):
            low, high = self.range_of(argument)
            if word.isdigit() and len(word) > 20:
                return Fault(17, number, f"word {at}: at most 20 digits wanted")
            if not (word.isdigit() and low <= int(word) <= high):
                span = f"a number from {low} to {high}" if low < high else low
                return Fault(17, number, f"word {at}: {span} wanted")
        return None

    def passed(self, line):
        """What stands behind this line: the name of its command and its numbers."""
        name, *words = line.split()
        numbers = [int(it) for it in words]
        if name == b"memory":
            self.nodes, self.lines = numbers
        self.stand = {b"memory": MEMORY, b"capacity": OPENINGS, b"open": OPENINGS}.get(name, COMMANDS)
        return name, numbers


def read(text):
    """The first fault, or None, and the place behind the lines in front of it."""
    place, lines = Place(), lines_of(text)
    for number, line in enumerate(lines, 1):
        if not is_skipped(line):
            fault = place.fault(number, line)
            if fault:
                return fault, place
            place.passed(line)
    return None if place.stand else Fault(16, len(lines) + 1, "memory wanted first"), place
