"""Logs: a second reader, written from docs/FORMATS.md. Of a line that reads well it doesn't say whether the table has it so."""
import re

from checker import NUMBER
from dumps import is_tag, word_of
from mutants import MOST, known, mutant
from reader import is_skipped, lines_of
from rows import EVENTS
from running import refused

KNOWN = known("clients/*.log")
ON_OWN = ["Hold", "Convert", "BeginPurge", "Roll", "Leave"]
ON_OTHER = ["AttachFresh", "AttachDirty", "PurgeOne", "TellSuccessor", "TellPredecessor", "Adopt", "Promote"]
BARE = [it for it in EVENTS if it not in ["Queue", "Requeue", "Written", *ON_OWN, *ON_OTHER]]
NAMES = [f"{place}_{kind}" for kind in ("FRESH", "DIRTY") for place in ("ONLY", "HEAD")] + ["TAIL_VALID", "MID_VALID"]
NAMES += ["INVALID", "QUEUED", "CONVERT", "PURGING", "LEAVING", "ROLL", "PURGED"]
WHYS = [b"not in turn", b"another word stood there", b"another line is answered", b"it can't end so"]

ANY, CODE = "(?:0|[1-9][0-9]*)", "[0-9a-f]{16}"
WORDS = f"(?P<words>(?: {NUMBER}){{8}})"
LINE = f"(?P<answer>(?: {NUMBER}){{9}})"
TAG = f"(?:(?P<name>{'|'.join(NAMES)})|(?P<code>{CODE}))"
EVENT = rf"(?:{'|'.join(BARE)}|(?:Queue|Requeue)\((?:none|{ANY})\)|Written\((?:none|words{WORDS})\)"
EVENT += rf"|(?:(?:{'|'.join(ON_OWN)})\(|(?:{'|'.join(ON_OTHER)})\((?P<other>{ANY}) ){TAG}\))"
NOTED = re.compile(rf"node (?P<node>{ANY}) line (?P<line>{ANY}) {EVENT} (?:Done{LINE}?|(?P<missed>Missed) {CODE}|Busy)")
OPENED = re.compile(f"open (?P<line>{ANY})(?P<words>(?: {NUMBER}){{9}})")
BEGUN = re.compile(f"memory ({ANY}) ({ANY})")


def is_below(number, bound):
    """Whether the digits are a number below this one."""
    return len(number) < 20 and int(number) < bound


def is_word(text):
    """Whether what stands between these spaces are words."""
    return all(int(it) <= MOST for it in (text or "").split())


def is_found(code):
    """Whether a tag has this code."""
    word = word_of(2, int(code, 16))
    return is_tag(word) or word == (0, False, None, None)


def noted_fault(nodes, lines, text):
    """By which number a line is refused that is to note an event, or None."""
    row = NOTED.fullmatch(text)
    if not row or not is_word(row["words"]) or not is_word(row["answer"]) or row["code"] and not is_found(row["code"]):
        return 16
    if row["name"] and row["missed"]:
        return 16
    is_right = is_below(row["node"], nodes) and is_below(row["line"], lines) and is_below(row["other"] or "0", nodes)
    return None if is_right else 17


def opened_fault(lines, row):
    """By which number an opening is refused, or None."""
    if not is_word(row["words"]):
        return 16
    return None if is_below(row["line"], lines) else 17


def read(text):
    """The number and the line of the first refusal, or None; and in which lines an event is noted. No log goes on behind a line Busy."""
    size, noted = None, []
    rows = lines_of(text)
    for number, row in enumerate(rows, 1):
        if is_skipped(row):
            continue
        row = row.decode("latin-1")
        begun, opened = BEGUN.fullmatch(row), OPENED.fullmatch(row)
        if size is None:
            fault = 16 if not begun else None if all(it != "0" and is_below(it, 1025) for it in begun.groups()) else 17
            size = [int(it) for it in begun.groups()] if fault is None else None
        elif opened and not noted:
            fault = opened_fault(size[1], opened)
        else:
            fault = noted_fault(*size, row)
            noted += [number] * (fault is None)
        if fault or row.endswith(" Busy"):
            return (fault, number), noted
    return ((None, None) if size else (16, len(rows) + 1)), noted


def event(by, nodes):
    """An event by chance, with its outcome."""
    name, node = by.choice(EVENTS), by.randrange(nodes + 1)
    kind, forw, back = by.choice((0, 2, 3, 7, 17, 19)), by.choice((65535, 0, 1)), by.choice((65535, 0))
    code = f"{kind | forw << 16 | back << 32:016x}"
    tag, words = by.choice((by.choice(NAMES), code)), 8 * f" {by.choice((0, 5, MOST, MOST + 1))}"
    head, new = by.choice(("none", node, MOST + 1)), by.choice(("none", f"words{words}"))
    arguments = {"Queue": head, "Requeue": head, "Written": new} | dict.fromkeys(ON_OWN, tag) | dict.fromkeys(ON_OTHER, f"{node} {tag}")
    argument = f"({arguments[name]})" if name in arguments else ""
    return f"{name}{argument} {by.choice(('Done', 'Done', f'Done {by.choice((MOST, MOST + 1))}{words}', f'Missed {code}', 'Busy'))}"


def log(by):
    """A log of reads and looks by chance, with one event of any kind."""
    nodes, lines = by.choice((1, 2, 64, 1024)), by.choice((1, 2, 64))
    node, line = by.randrange(nodes), by.randrange(lines)
    rows = [f"memory {nodes} {lines}"] + [f"open {line}" + 9 * f" {by.choice((0, 7, MOST))}"] * by.choice((0, 0, 1))
    steps = ["Queue(none)", "PrependValid", "ReturnMemory", "Settle"][: by.randrange(5)]
    rows += [f"node {node} line {line} {it} Done" for it in steps]
    rows += [f"node {by.randrange(nodes)} line {by.randrange(lines)} Look Done"] * by.randrange(4)
    rows.insert(by.randint(1, len(rows)), f"node {by.choice((node, by.randrange(nodes + 1)))} line {line} {event(by, nodes)}")
    return "\n".join([*rows, ""]).encode()


def text(by):
    """A log by chance, or a mutant of one."""
    it = by.choice(KNOWN) if by.random() < 0.2 else log(by)
    return it if by.random() < 0.3 else mutant(by, it)


def wrong(run, text):
    """What is wrong with what `check` says of a text, or nothing. A line may depart from the table in front of the first fault."""
    first = next((it for it in lines_of(text) if not is_skipped(it)), b"")
    (number, line), noted = read(text) if re.match(rb"memory(?:[ \t\r]|$)", first) else ((21, 1), [])
    told = run("check")
    follows = (0, b"follows\n", b"") if line is None else "a line that departs"
    wanted = refused(f"{number} at line {line}") if number else follows
    departs = re.fullmatch(rb"line (\d+): (.*)\n", told[1])
    is_departed = told[::2] == (3, b"") and departs and int(departs[1]) in noted and departs[2] in WHYS
    if told == wanted or is_departed and text not in KNOWN:
        return ""
    return f"{told}, and not {wanted}"
