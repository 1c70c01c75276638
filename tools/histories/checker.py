"""A second checker of histories, written from docs/FORMATS.md alone."""

import re

NUMBER = "(0|[1-9][0-9]{0,19})"
NINE = f"((?: {NUMBER}){{9}})"
HEAD = re.compile(rf"scihistory 1 {NUMBER} {NUMBER}")
ROW = re.compile(rf"(line|closed|read|passed) {NUMBER}{NINE}")
WRITE = re.compile(rf"(wrote) {NUMBER}{NINE} over((?: {NUMBER}){{8}})")


def row_of(text):
    """The label, the number, the stamp, the words, and of a write the words before; or None."""
    row = WRITE.fullmatch(text) or ROW.fullmatch(text)
    values = [int(it) for it in re.findall(" ([0-9]+)", text)] if row else [2**64]
    if max(values) >= 2**64:
        return None
    return row[1], values[0], values[1], values[2:10], values[10:]


def read(text):
    """The lines, each with its opening and closing content and its nodes' lists; or the number of the line of text at fault."""
    rows = text.split("\n")
    head = HEAD.fullmatch(rows[0])
    nodes, lines = (int(it) for it in head.groups()) if head and len(rows) > 1 else (0, 0)
    if not (1 <= nodes <= 1024 and 1 <= lines <= 1024):
        return 1
    at, found = 1, []
    # a line of text is one behind which a line feed stands
    given = [row_of(it) for it in rows[:-1]] + [None]
    for number in range(lines):
        for label in ("line", "closed"):
            if given[at] is None or given[at][:2] != (label, number):
                return at + 1
            at += 1
        line, node = (given[at - 2][2:4], given[at - 1][2:4], [[] for _ in range(nodes)]), 0
        while given[at] and given[at][0] in ("read", "passed", "wrote") and node <= given[at][1] < nodes:
            node = given[at][1]
            line[2][node].append(given[at])
            at += 1
        found.append(line)
    if at >= len(rows) - 1 or rows[at] != "end":
        return at + 1
    return found if rows[at + 1 :] == [""] else at + 2


def broken(opening, closing, lists):
    """The first rule that a line breaks, or None."""
    (first, words), (last, final) = opening, closing
    receipts = [it for each in lists for it in each]
    writes = [it[2] for it in receipts if it[0] == "wrote"]
    if first > last or any(not first + (it[0] == "wrote") <= it[2] <= last for it in receipts):
        return 1
    if any(s[2] < r[2] + (s[0] == "wrote") for each in lists for r, s in zip(each, each[1:])):
        return 2
    if last - first > len(writes) or set(range(first + 1, last + 1)) - set(writes):
        return 3
    if len(writes) != len(set(writes)):
        return 4
    shown = [(first, words), (last, final)] + [(it[2], it[3]) for it in receipts] + [(it[2] - 1, it[4]) for it in receipts if it[4]]
    known = dict(shown)
    return 5 if any(known[stamp] != it for stamp, it in shown) else None


def verdict(text):
    """What `scisim check` is to print, or the number of the line of text at fault."""
    lines = read(text)
    if isinstance(lines, int):
        return lines
    rules = [broken(*line) for line in lines]
    return next((f"line {number} breaks H{rule}\n" for number, rule in enumerate(rules) if rule), "legal\n")
