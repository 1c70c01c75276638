"""States of a line without its bytes, and what the rows of tools/law make of them."""
import itertools
import os
import sys
from collections import namedtuple

sys.path.insert(0, os.path.join(os.path.dirname(os.path.abspath(__file__)), '..', 'law'))
from rows import FLAG, LINE, LINK, NODE, ROWS, STEP_FIELDS, Word  # noqa: E402
from terms import evaluate, match, parse  # noqa: E402

Tag = namedtuple('Tag', 'kind held forw back')
Memory = namedtuple('Memory', 'state lent forw')
Step = namedtuple('Step', 'phase parts')
IDLE = Step('Idle', ())
BYTES = 'bytes'


class State(namedtuple('State', 'memory tags steps')):
    """Memory's word, and each node's tag and pending step. A link is None, or a tuple of one node."""

    def slot(self, node):
        """A node's slot: its bytes, if nobody has it in hand."""
        out = self.tags[node].held or self.steps[node].phase not in ('Idle', 'Converting', 'Rolling', 'Unlinked')
        return None if out else (BYTES,)

    def memory_slot(self):
        """Memory's slot."""
        return None if self.memory.lent else (BYTES,)

    def at_rest(self):
        """Whether every step is Idle."""
        return all(step == IDLE for step in self.steps)


def opened(nodes):
    """A line that nobody has used."""
    return State(Memory('Home', False, None), (Tag('Invalid', False, None, None),) * nodes, (IDLE,) * nodes)


def replaced(items, place, item):
    """The items, with another one in its place."""
    return items[:place] + (item,) + items[place + 1:]


def value_of(part, bound, state):
    """A part of a step: a kept word, or what a text says."""
    if isinstance(part, Word):
        return tag_of(part, bound, state)
    return evaluate(parse(part), bound, state)


def tag_of(word, bound, state):
    """A tag word of a row."""
    return Tag(*(evaluate(parse(text), bound, state) for text in (word.kind, word.held, word.forw, word.back)))


def memory_of(word, bound, state):
    """A memory word of a row."""
    return Memory(*(evaluate(parse(text), bound, state) for text in (word.state, word.lent, word.forw)))


def choices(kind, nodes, lines):
    """What an argument may be that the step does not say."""
    links = [None, *((node,) for node in range(nodes))]
    return {NODE: range(nodes), LINK: links, FLAG: (False, True), LINE: lines}[kind]


def bindings(row, state, me, lines=(BYTES,)):
    """The row's arguments that fit the node's pending step, one set after another; a line that the step doesn't keep is one of these."""
    bound = {'me': me}
    phase, *parts = row.step
    step = state.steps[me]
    if step.phase != phase or not all(match(parse(part), each, bound) for part, each in zip(parts, step.parts)):
        return
    left = [(name, kind) for name, kind in row.args if name not in bound]
    for values in itertools.product(*(choices(kind, len(state.tags), lines) for _, kind in left)):
        yield {**bound, **dict(zip((name for name, _ in left), values))}


def is_met(row, state, bound):
    """Whether the row finds its words, and its other premises hold."""
    if row.memory_before and state.memory != memory_of(row.memory_before, bound, state):
        return False
    if any(state.tags[bound[node]] != tag_of(word, bound, state) for node, word in row.before.items()):
        return False
    return all(evaluate(parse(text), bound, state) for _, text in row.needs)


def memory_after(row, state, bound):
    """Memory's word after the row."""
    return memory_of(row.memory, bound, state) if row.memory else state.memory


def after(row, state, bound):
    """The state after the row."""
    tags = state.tags
    for node, word in row.words.items():
        tags = replaced(tags, bound[node], tag_of(word, bound, state))
    phase, *parts = row.after
    step = Step(phase, tuple(value_of(part, bound, state) for part in parts))
    return State(memory_after(row, state, bound), tags, replaced(state.steps, bound['me'], step))


def steps_from(state, me):
    """All that the node can do: event, arguments, state after."""
    for row in ROWS.values():
        for bound in bindings(row, state, me):
            if is_met(row, state, bound):
                yield row.event, bound, after(row, state, bound)


def part(step, name):
    """A part of a pending step by its name in tools/law."""
    return step.parts[STEP_FIELDS[step.phase].index(name)]
