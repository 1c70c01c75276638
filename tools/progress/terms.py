"""Reads the texts of tools/law's rows, and evaluates them on a state."""
import functools
import re

TOKENS = re.compile(r'\(|\)|,|[^\s(),]+')


@functools.cache
def parse(text):
    """A text as nested tuples: words, applications, tuples and comparisons."""
    tokens = TOKENS.findall(text)
    tree, rest = sentence(tokens)
    assert not rest, text
    return tree


def sentence(tokens):
    """Terms with ≡, ≢ or ⊎ between them, or one term."""
    left, tokens = term(tokens)
    while tokens and tokens[0] in '≡≢⊎':
        sign, (right, rest) = tokens[0], term(tokens[1:])
        left, tokens = (sign, left, right), rest
    return left, tokens


def term(tokens):
    """A word with what it is applied to."""
    parts = []
    while tokens and tokens[0] not in ('≡', '≢', '⊎', ')', ','):
        part, tokens = atom(tokens)
        parts.append(part)
    return (parts[0] if len(parts) == 1 else ('apply', *parts)), tokens


def atom(tokens):
    """A word, or what stands in parentheses."""
    if tokens[0] != '(':
        return tokens[0], tokens[1:]
    first, tokens = sentence(tokens[1:])
    items = [first]
    while tokens[0] == ',':
        each, tokens = sentence(tokens[1:])
        items.append(each)
    return (first if len(items) == 1 else ('pair', *items)), tokens[1:]


def match(pattern, value, bound):
    """Binds the names of a pattern so that it is the value; whether it can be."""
    if isinstance(pattern, str):
        if pattern in CONSTANTS:
            return value == CONSTANTS[pattern]
        return bound.setdefault(pattern, value) == value
    if pattern[0] == 'pair':
        return all(match(part, each, bound) for part, each in zip(pattern[1:], value))
    assert pattern[:2] == ('apply', 'Some'), pattern
    return value is not None and match(pattern[2], value[0], bound)


CONSTANTS = {'None': None, 'true': True, 'false': False}


def evaluate(tree, bound, state):
    """The value of a text: `Some x` is a tuple of one, a kind or a state of memory its name."""
    if isinstance(tree, str):
        return named(tree, bound, state)
    if tree[0] == 'pair':
        return tuple(evaluate(each, bound, state) for each in tree[1:])
    if tree[0] in '≡≢⊎':
        left, right = (evaluate(each, bound, state) for each in tree[1:])
        return {'≡': left == right, '≢': left != right, '⊎': left or right}[tree[0]]
    head, *args = tree[1:]
    values = [evaluate(each, bound, state) for each in args]
    if head == 'Some':
        return (values[0],)
    if head == 'cond':
        return values[1] if values[0] else values[2]
    if head == 'can_be_held':
        return values[0] in ('Fresh', 'Dirty', 'Valid')
    if head == 's.slot':
        return state.slot(values[0])
    return getattr(state.tags[values[0]], head.removeprefix('s.'))


def named(name, bound, state):
    """The value of a single word."""
    if name in CONSTANTS:
        return CONSTANTS[name]
    if name in bound:
        return bound[name]
    if name.startswith(('Kind.', 'MemState.')):
        return name.split('.')[1]
    if name == 's.memory_slot':
        return state.memory_slot()
    if name.startswith('s.'):
        return getattr(state.memory, {'s.head': 'forw'}.get(name, name[2:]))
    kept, _, field = name.partition('.')
    if kept not in bound or not hasattr(bound[kept], field):
        raise SystemExit(f'a row names {name}, which it does not have')
    return getattr(bound[kept], field)
