"""A state, and the run that leads to it, in words."""
from states import STEP_FIELDS


def link(it):
    """A link as docs/PROTOCOL.md writes it."""
    return '-' if it is None else str(it[0])


def part(it):
    """A part of a pending step."""
    if isinstance(it, tuple):
        return ','.join(map(part, it))
    if isinstance(it, bool):
        return 'yes' if it else 'no'
    return 'none' if it is None else str(it)


def node(tag, step):
    """A node's tag and pending step."""
    kept = [f'{name} {part(it)}' for name, it in zip(STEP_FIELDS[step.phase], step.parts)]
    return f"{tag.kind}{'+' * tag.held}({link(tag.forw)},{link(tag.back)}) {' '.join([step.phase, *kept])}"


def told(state):
    """A state."""
    memory = f"{state.memory.state.upper()}{'+' * state.memory.lent}({link(state.memory.forw)})"
    return '; '.join([f'memory {memory}', *(f'node {me}: {node(*each)}' for me, each in enumerate(zip(state.tags, state.steps)))])


def run_to(came, state):
    """The events that led to a state, one behind another."""
    run = []
    while came[state]:
        state, me, event = came[state]
        run.append(f'node {me} {event}')
    return ', '.join(run[::-1]) or 'no event'
