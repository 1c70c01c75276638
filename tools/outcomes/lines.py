"""A line with its bytes, and what one turn of a call makes of it, taken in one go, by the rows of tools/law and the table of turns of
tools/progress."""
import itertools
import pathlib
import sys
from collections import namedtuple

sys.path.insert(0, str(pathlib.Path(__file__).resolve().parents[1] / 'progress'))
from scripts import LAST  # noqa: E402
from states import FLAG, IDLE, LINE, LINK, NODE, ROWS, Memory, Step, Tag, is_met, match, memory_after, replaced, tag_of, value_of  # noqa: E402
from terms import evaluate, parse  # noqa: E402
from turns import NOTES_HEAD, WAITS, plan  # noqa: E402

BLANK = (0, (0,) * 8)
Call = namedtuple('Call', 'goal word value')


class Whole(namedtuple('Whole', 'memory tags steps slots home')):
    """A line: memory's word, each node's tag, pending step and slot, and memory's slot. A slot is None, or a tuple of one content."""

    def slot(self, node):
        """A node's slot."""
        return self.slots[node]

    def memory_slot(self):
        """Memory's slot."""
        return self.home


def opened(nodes, content):
    """A line that no node has used: each slot has this content."""
    return Whole(Memory('Home', False, None), (Tag('Invalid', False, None, None),) * nodes, (IDLE,) * nodes, ((content,),) * nodes, (content,))


def choices(kind, line):
    """What an argument may be that the step does not say."""
    nodes = range(len(line.tags))
    contents = {each for slot in (line.home, *line.slots) for each in slot or ()}
    return {NODE: nodes, LINK: [None, *((node,) for node in nodes)], FLAG: (False, True), LINE: contents}[kind]


def bindings(row, line, node, given):
    """The row's arguments that fit the node's pending step and what is given, one set after another."""
    bound = {'me': node, **given}
    phase, *parts = row.step
    step = line.steps[node]
    if step.phase != phase or not all(match(parse(part), each, bound) for part, each in zip(parts, step.parts)):
        return
    left = [(name, kind) for name, kind in row.args if name not in bound]
    for values in itertools.product(*(choices(kind, line) for _, kind in left)):
        yield {**bound, **dict(zip((name for name, _ in left), values))}


def after(row, line, bound):
    """The line after the row."""
    tags, slots, home = line.tags, line.slots, line.home
    for node, word in row.words.items():
        tags = replaced(tags, bound[node], tag_of(word, bound, line))
    for place, text in row.slots.items():
        slot = evaluate(parse(text), bound, line)
        if place == 'memory':
            home = slot
        else:
            slots = replaced(slots, bound[place], slot)
    phase, *parts = row.after
    step = Step(phase, tuple(value_of(part, bound, line) for part in parts))
    return Whole(memory_after(row, line, bound), tags, replaced(line.steps, bound['me'], step), slots, home)


def made(line, node, event, given):
    """The line after the node's event, or None where no row has it so."""
    rows = (row for row in ROWS.values() if row.event == event and set(given) <= {name for name, _ in row.args})
    afters = (after(row, line, bound) for row in rows for bound in bindings(row, line, node, given) if is_met(row, line, bound))
    return next(afters, None)


def written(call, content):
    """The content that a write makes of this one."""
    stamp, words = content
    value = call.value if call.goal == 'store' else (words[call.word] + call.value) % 2**64
    return stamp + 1, replaced(words, call.word, value)


def given_to(event, line, node, call):
    """What the turn says of its event: the head that it notes, what it writes, or what it gives back."""
    if event in NOTES_HEAD:
        return {'forw': line.memory.forw}
    if event == 'Written':
        return {'new': written(call, line.steps[node].parts[0])}
    # the row leaves open which bytes a head that has left gives back: they are zeros
    return {'line': BLANK} if event == 'Left' else {}


def answer(line, node, call):
    """What a script prints of the call, which has just ended."""
    stamp, words = (line.slots[node] or (BLANK,))[0]
    return {'load': f'node {node} read {words[call.word]} stamp {stamp}', 'evict': f'node {node} out'}.get(
        call.goal, f'node {node} wrote stamp {stamp}')


def turn(line, node, call):
    """The line after the node's turn, and the answer where the call has ended."""
    goal = call.goal if call.goal in LAST else 'write'
    event = plan(line, node, goal)
    looked = made(line, node, 'Look', {}) or line
    if event == WAITS:
        return looked, None
    if event != 'ends':
        line = made(looked, node, event, given_to(event, looked, node, call))
    return line, answer(line, node, call) if event in LAST[goal] else None
