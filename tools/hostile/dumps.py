"""Dumps: a second reader and a second check, written from docs/FORMATS.md and docs/PROTOCOL.md."""
import re
from collections import namedtuple

from checker import NUMBER
from mutants import MOST, known, mutant
from running import LIMIT, refused

KNOWN = known("*.dump")
HEAD = re.compile(rf"scidump ([12]) {NUMBER} {NUMBER}")
ROW = re.compile(rf"(line|tag)((?: {NUMBER}){{1,2}}) ([0-9a-f]{{16}})((?: {NUMBER}){{9}})")
FRESH, DIRTY, VALID = 2, 3, 7
NAMES = {FRESH: ("ONLY_FRESH", "HEAD_FRESH"), DIRTY: ("ONLY_DIRTY", "HEAD_DIRTY"), VALID: ("TAIL_VALID", "MID_VALID")}
STATES = ["HOME", "FRESH", "GONE"]
# How many bits a link has in a layout, and how many nodes.
BITS, NODES = {1: 8, 2: 16}, {1: 64, 2: 1024}

# A word, its links None where it has none.
Word = namedtuple("Word", "kind held forw back")
Line = namedtuple("Line", "memory content tags")


def word_of(layout, code):
    """The word with this code, or None where a spare bit is set."""
    bits = BITS[layout]
    none = (1 << bits) - 1
    if code & ~(31 | none << bits | none << 2 * bits):
        return None
    forw, back = (code >> at & none for at in (bits, 2 * bits))
    return Word(code & 15, bool(code & 16), None if forw == none else forw, None if back == none else back)


def code_of(layout, word):
    """The code of a word."""
    bits = BITS[layout]
    forw, back = ((1 << bits) - 1 if link is None else link for link in word[2:])
    return word.kind | word.held << 4 | forw << bits | back << 2 * bits


def is_memory(word):
    """Whether this is a memory word."""
    return word is not None and word.back == 0 and word.kind < len(STATES) and (word.kind == 0) == (word.forw is None)


def is_tag(word):
    """Whether this is a tag, and not Invalid."""
    return word is not None and 0 < word.kind < 10 and (word.kind < 7) == (word.back is None) and (not word.held or word.kind in NAMES)


def row_of(layout, text):
    """The label, its numbers, the word and the content of a row; or None."""
    row = ROW.fullmatch(text)
    if not row:
        return None
    numbers, content = ([int(it) for it in row[at].split()] for at in (2, 5))
    word = word_of(layout, int(row[4], 16))
    is_right = max(content) <= MOST and (is_memory(word) if row[1] == "line" else is_tag(word))
    return (row[1], numbers, word, content) if is_right else None


def is_of_last(row, nodes, found):
    """Whether a line of text at fault is of a node of the last line, which is then not read to its end."""
    named = found and re.match(rf"tag {len(found) - 1} {NUMBER} ", row)
    return bool(named) and max(found[-1].tags, default=-1) < int(row.split(" ")[2]) < nodes


def read(text):
    """The number of the line of text at fault, or None; how many nodes there are, and the lines in front of the fault."""
    rows = text.split("\n")
    head = HEAD.fullmatch(rows[0])
    layout, nodes, lines = (int(it) for it in head.groups()) if head and len(rows) > 1 else (1, 0, 0)
    if not (1 <= nodes <= NODES[layout] and 1 <= lines <= 1024):
        return 1, 0, []
    found = []
    # a line of text is one behind which a line feed stands
    for at, row in enumerate(rows[1:-1], 2):
        if row == "end":
            break
        label, numbers, word, content = row_of(layout, row) or ("", [], None, None)
        if label == "line" and numbers == [len(found)] and len(found) < lines:
            found.append(Line(word, content, {}))
        elif label == "tag" and len(numbers) == 2 and numbers[0] == len(found) - 1 and max(found[-1].tags, default=-1) < numbers[1] < nodes:
            found[-1].tags[numbers[1]] = word, content
        else:
            return at, nodes, found[: len(found) - is_of_last(row, nodes, found)]
    else:
        return len(rows), nodes, found[: len(found) - is_of_last(rows[-1], nodes, found)]
    if len(found) < lines:
        return at, nodes, found
    return None if rows[at:] == [""] else at + 1, nodes, found


def chain_of(nodes, line):
    """The nodes that the forward links name, one after another; or None where they aren't distinct nodes that there are."""
    found, link = {}, line.memory.forw
    while link is not None:
        if link >= nodes or link in found:
            return None
        found[link] = True
        link = line.tags[link][0].forw if link in line.tags else None
    return list(found)


def broken(nodes, line):
    """The first rule that a line breaks, or None."""
    words = [word for word, _ in line.tags.values()]
    if line.memory.held or any(it.held or it.kind not in NAMES for it in words):
        return 1
    chain = chain_of(nodes, line)
    if chain is None:
        return 2
    if set(chain) != set(line.tags):
        return 3
    entries = [line.tags[node][0] for node in chain]
    if any((it.kind == VALID, it.back) != (at > 0, chain[at - 1] if at else None) for at, it in enumerate(entries)):
        return 4
    if entries and entries[0].kind != line.memory.kind + 1:
        return 5
    contents = [line.tags[node][1] for node in chain] + [line.content] * (line.memory.kind < 2)
    return 6 if any(it != contents[0] for it in contents) else None


def listed(nodes, number, line):
    """The sharing list of a lawful line."""
    entries = [f"{node} {NAMES[line.tags[node][0].kind][line.tags[node][0].forw is not None]}" for node in chain_of(nodes, line)]
    return f"line {number} {STATES[line.memory.kind]}" + (f" {line.memory.forw}: {', '.join(entries)}" if entries else "") + "\n"


def told(nodes, lines):
    """What is told of lines, up to the first that breaks a rule, and whether one does."""
    found = ""
    for number, line in enumerate(lines):
        rule = broken(nodes, line)
        if rule:
            return f"{found}line {number} breaks C{rule}\n", True
        found += listed(nodes, number, line)
    return found, False


def answers(text):
    """How `check` is to answer, and how `check --large`, which tells each line once it is judged."""
    fault, nodes, lines = read(text.decode("latin-1"))
    found, is_broken = told(nodes, lines)
    if fault:
        status, _, said = refused(f"21 at line {fault}")
        large = status, found.encode(), said
        short = status, b"", said
    elif is_broken:
        large = 3, found.encode(), b""
        short = 3, f"{found.splitlines()[-1]}\n".encode(), b""
    else:
        large = short = 0, f"{found}lawful\n".encode(), b""
    return refused("23") if len(text) > LIMIT else short, large


def words_by(by, nodes):
    """A memory word and the tags of a sharing list by chance, now and then with one or two things changed."""
    chain, state = by.sample(range(nodes), by.randrange(min(nodes, 5) + 1)), by.choice((1, 2))
    links = [None, *chain, None]
    words = [Word(state if chain else 0, False, links[1 % len(links)], 0)]
    words += [Word(VALID if at else state + 1, False, links[at + 2], links[at]) for at in range(len(chain))]
    for _ in range(by.choice((0, 0, 0, 0, 1, 1, 2))):
        at, link = by.choice((0, -1, by.randrange(len(words)))), by.choice((None, by.randrange(nodes + 1)))
        field, value = by.choice((("kind", by.randrange(11)), ("held", True), ("forw", link), ("back", link)))
        words[at] = words[at]._replace(**{field: value})
    return words[0], sorted(zip(chain, words[1:]))


def dump(by):
    """A dump by chance."""
    layout = by.choice((1, 2))
    nodes, lines = by.choice((1, 2, 3, 5, NODES[layout], NODES[layout] + (by.random() < 0.1))), by.choice((1, 1, 2, 3))
    rows = [f"scidump {layout} {nodes} {lines}"]
    for line in range(lines):
        contents = [" ".join(str(by.choice((0, 7, MOST))) for _ in range(9)) for _ in range(2)]
        memory, tags = words_by(by, nodes)
        rows.append(f"line {line} {code_of(layout, memory):016x} {contents[0]}")
        rows += [f"tag {line} {node} {code_of(layout, tag):016x} {contents[memory.kind == 2 or by.random() < 0.1]}" for node, tag in tags]
    return "\n".join([*rows, "end", ""]).encode()


def text(by):
    """A dump by chance, or a mutant of one."""
    if by.random() < 0.001:
        return (by.choice(KNOWN) * 20_000)[: LIMIT + by.randrange(2)]
    it = by.choice(KNOWN) if by.random() < 0.2 else dump(by)
    return it if by.random() < 0.3 else mutant(by, it)


def wrong(run, text):
    """What is wrong with what `check` says of a text, or nothing."""
    for words, wanted in zip((["check"], ["check", "--large"]), answers(text)):
        said = run(*words)
        if said != wanted:
            return f"{words}: {said}, and not {wanted}"
    whole, large = (run("check", "--why", *words)[2] for words in ([], ["--large"]))
    return "" if whole == large or len(text) > LIMIT else f"the reason with --large is {large}, and not {whole}"
