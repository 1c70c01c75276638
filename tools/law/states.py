"""Writes the rows of docs/PROTOCOL.md, and docs/EVENTS.md: which row an event is in each state, where it misses, where it isn't in turn.
With --check it also looks whether the events have these names and numbers wherever they stand."""
import difflib
import pathlib
import re

import names
from clauses import TOP, read
from rows import EVENTS, ROWS, STEP_FIELDS, Word, inside

STATES = ['Home', 'Fresh', 'Gone']
KINDS = ['Invalid', 'Queued', 'Fresh', 'Dirty', 'Convert', 'Purging', 'Leaving', 'Valid', 'Roll', 'Purged']
HOLDABLE = ['Fresh', 'Dirty', 'Valid']
ORDER = [row for event in EVENTS for row in ROWS.values() if row.event == event]
NUMBERS = {row.name: number for number, row in enumerate(ORDER, 1)}
# The events that carry the tag that they found: with another kind they aren't in turn.
FOUND = set(re.findall(r'(?m)^    (\w+)\(Tag\),', read('src', 'events.rt')))
ARGUMENTS = {'queue': '(f)', 'requeue': '(f)', 'written': '(words)', 'unwritten': '(none)'}
SLOTS = {'me': 'own', 'target': "x's", 'memory': "memory's"}
PLACE = re.compile(r'(?ms)^(<!-- rows ([\w ]+) -->\n).*?^(<!-- end of rows -->\n)')
NAMES = {'target': 'x', 'line': '', 'seen': 'anything', 'back': 'b', 'old': 'g', 'forw': 'f'}
HEAD = """# Which event in which state

`python3 tools/law states` writes this page, and the rows of [PROTOCOL.md](PROTOCOL.md#exchanges), from
[tools/law/rows.py](../tools/law/rows.py), of which the prover checks that they are the table of exchanges and keep the law; the gate
compares it. A number is a row's there.

## By the pending step

An event in another step isn't in turn. Look is always allowed; where it isn't named it records nothing.

"""
MEMORY = """
## By memory's word

An event in turn that finds another word on memory misses, also where the word names another node than the row's. ReturnMemory never
misses in a lawful state.

"""
TAGS = """
## By the tag

By the kind of the tag that an exchange finds, the node's own or another's; the links must be the row's too. `+` is held. With another tag
an event that carries the tag that its node has loaded (`found`) isn't in turn, and any other misses; with a right one it still misses
where that has changed since. Whether a kind can be met there at all is a matter of the law:
[what a node's own tag is in each step](PROTOCOL.md#pending-steps).

"""


def link(text):
    """A link in short: `-` for none."""
    if text == 'None':
        return '-'
    some = inside(text) or text.removeprefix('Some ')
    return NAMES.get(some, 'f' if 's.forw' in some else some)


def flag(word, text):
    """A mark of a step: there, not there, or unnamed where it may be either."""
    return {'true': [word], 'false': [f'not {word}']}.get(text, [])


def sight(text):
    """What a step has seen."""
    if text in ('None', 'seen'):
        return ['anything seen'] if text == 'seen' else []
    seen = inside(text)
    if seen.startswith('('):
        forw, back = seen[1:-1].split(', ') if ', ' in seen else (seen, None)
        return [f'seen ({link(forw)},{link(back)})'] if back else [f'seen {link(seen)}']
    return [f'seen {link(seen)}']


def step_of(step):
    """A pending step with what it keeps, but for lines."""
    phase, *parts = step
    kept, marks = [], []
    for name, part in zip(STEP_FIELDS[phase], parts):
        if name in ('kept', 'node', 'back_kept'):
            kept.append(link(part))
        elif name == 'flag':
            marks += flag({'Converting': 'turned', 'Rolling': 'told'}.get(phase, 'dirty'), part)
        elif name == 'copy':
            marks += ['a copy'] if inside(part) else ['no copy'] if part == 'None' else []
        elif name == 'sight':
            marks += sight(part)
    return ', '.join([phase + (f'({",".join(kept)})' if kept else '')] + marks)


def before_of(row):
    """The pending step that a row asks for. Where its mark may be wanting, that nobody is behind does instead."""
    text = step_of(row.step)
    return text.replace('Rolling', 'Rolling, told or f is -') if any(name == 'in_turn' for name, _ in row.needs) else text


def kinds_of(row):
    """The node whose tag the row changes, the kinds that it finds there, and whether it finds them held."""
    node = next(iter(row.words))
    word = row.before.get(node)
    if word and word.kind.startswith('Kind.'):
        return node, [word.kind[5:]], word.held == 'true'
    if word:
        return node, kept_kinds(row.step[0]), True
    texts = [text for _, text in row.needs if f's.kind {node}' in text]
    if any('can_be_held' in text for text in texts):
        return node, HOLDABLE, False
    wanted = [kind for text in texts if '≡' in text for kind in re.findall(r'Kind\.(\w+)', text)]
    barred = [kind for text in texts if '≢' in text for kind in re.findall(r'Kind\.(\w+)', text)]
    return node, wanted or [kind for kind in KINDS if kind not in barred], False


def kept_kinds(phase):
    """The kinds of the word that a step keeps: those which the row that enters it leaves there."""
    enters = next(row for row in ROWS.values() if row.after[0] == phase and row.step[0] != phase and any(isinstance(it, Word) for it in row.after))
    kind = next(it for it in enters.after if isinstance(it, Word)).kind
    return [kind[5:]] if kind.startswith('Kind.') else kinds_of(enters)[1]


def states_of(row):
    """The states of memory's word that the row finds."""
    text = row.memory_before.state
    return [state for state in STATES if f'MemState.{state}' in text]


def tag_text(kinds, forw, back, held):
    names = 'K' if len(kinds) > 3 else '/'.join(sorted(kinds, key=KINDS.index))
    return f'{names}{"+" if held else ""}({forw},{back})'


def words_of(row):
    """The word that the row finds and the one that it leaves, as texts."""
    if row.memory:
        after = row.memory
        if not row.memory_before:
            return 'memory: as it was lent', 'the same, not lent'
        names = '/'.join(state.upper() for state in states_of(row))
        before = names + ('' if row.memory_before.forw == 'None' else f'({link(row.memory_before.forw)})')
        left = names if 'dirty' in after.state else after.state.split('.')[1].upper()
        return 'memory: ' + before, left + ('+' if after.lent == 'true' else '') + ('' if after.forw == 'None' else f'({link(after.forw)})')
    node, kinds, held = kinds_of(row)
    word = row.before.get(node)
    forw, back = ends(word, node, row)
    after = row.words[node]
    left = after_kinds(row, after, kinds)
    new_forw, new_back = (link_after(after.forw, forw), link_after(after.back, back))
    return ('own: ' if node == 'me' else 'x: ') + tag_text(kinds, forw, back, held), tag_text(left, new_forw, new_back, after.held == 'true')


def ends(word, node, row):
    """The links of the tag that a row finds; `f` and `b` where the row takes any."""
    if word and not word.forw.startswith('kept'):
        return link(word.forw), link(word.back)
    needs = ' '.join(text for _, text in row.needs)
    forw = 'me' if f's.forw {node} ≡ Some me' in needs else 'f'
    back = 'me' if f's.back {node} ≡ Some me' in needs else 'not me' if f's.back {node} ≢ Some me' in needs else 'b'
    fronts = not set(kinds_of(row)[1]) & {'Valid', 'Roll', 'Purged'}
    return forw, '-' if fronts else 'me' if row.event == 'ReturnCopy' else back


def link_after(text, before):
    """A link of the tag that a row leaves."""
    if text.startswith('(s.') or text.startswith('kept.'):
        return before if not text.startswith('kept.forw') or before != 'x' else 'f'
    return link(text)


def after_kinds(row, word, kinds):
    if word.kind.startswith('Kind.'):
        return [word.kind[5:]]
    return re.findall(r'Kind\.(\w+)', word.kind) or kinds


def grid(head, rows):
    """A table."""
    lines = [head, ['---'] * len(head), *rows]
    return ''.join('|' + ''.join(f' {cell} |' if cell else '|' for cell in line) + '\n' for line in lines)


def named(rows):
    """The events of these rows, each with the row's number."""
    return ', '.join(f'{row.event} {NUMBERS[row.name]}' for row in rows)


def by_step():
    """The rows of each pending step."""
    return grid(['in step', 'rows'], [[phase, named(row for row in ORDER if row.step[0] == phase)] for phase in STEP_FIELDS])


def label_of(row):
    """The row's event with its argument."""
    return row.event + ARGUMENTS.get(row.name, '(found)' if row.event in FOUND else '')


def slot_of(row):
    """Whose slot the row takes or gives, and where the line that it gives isn't the one kept."""
    for whose, line in row.slots.items():
        written = ', with the words' if line == '(Some new)' else ''
        return f'takes {SLOTS[whose]}' if line == 'None' else f'gives {SLOTS[whose]}{written}'
    return ''


def listed(events):
    """The rows of these events."""
    rows = []
    for row in (it for event in events for it in ORDER if it.event == event):
        before, after = ('own, loaded', 'the same') if row.event == 'Look' else words_of(row)
        rows.append([f'{NUMBERS[row.name]} {label_of(row)}', before_of(row), before, after, slot_of(row), step_of(row.after)])
    return grid(['event', 'in step', 'finds', 'leaves', 'slot', 'step after'], rows)


def by_memory():
    """The rows on memory's word, by the word that is found."""
    finds = [(row, states_of(row) if row.memory_before else ['lent']) for row in ORDER if row.memory]
    return grid(['finds', 'rows'], [[it.upper() if it in STATES else it, named(row for row, there in finds if it in there)]
                                    for it in STATES + ['lent']])


def by_tag():
    """The rows on a tag, by the kind that is found."""
    finds = [(row, *kinds_of(row)) for row in ORDER if row.words]
    rows = []
    for kind, is_held in [(kind, held) for kind in KINDS for held in ([False, True] if kind in HOLDABLE else [False])]:
        there = [(row, node) for row, node, kinds, held in finds if kind in kinds and held == is_held]
        own, others = (named(row for row, node in there if (node == 'me') == is_own) for is_own in (True, False))
        rows.append([kind + ('+' if is_held else ''), own, others])
    return grid(['finds', 'on the own tag', 'on another\'s'], rows)


def events_page(_):
    """The text of docs/EVENTS.md."""
    return HEAD + by_step() + MEMORY + by_memory() + TAGS + by_tag()


def protocol_page(text):
    """The text of docs/PROTOCOL.md with the rows in their places, each once."""
    placed = [event for _, events, _ in PLACE.findall(text) for event in events.split()]
    if sorted(placed) != sorted(EVENTS):
        raise SystemExit('states: docs/PROTOCOL.md hasn\'t a place for the rows of each event')
    return PLACE.sub(lambda place: place[1] + listed(place[2].split()) + place[3], text)


def judge(name, made, is_check):
    """Writes a page as it is made of what stands there; or says where it isn't so. Gives the number of faults."""
    path = pathlib.Path(TOP, 'docs', name)
    there = path.read_text(encoding='utf-8')
    text = made(there)
    if not is_check:
        path.write_text(text, encoding='utf-8')
    elif text != there:
        print(f'states: docs/{name} isn\'t what the rows give; python3 tools/law states writes it')
        print('\n'.join(difflib.unified_diff(there.split('\n'), text.split('\n'), lineterm='', n=0)))
        return 1
    return 0


def states(words):
    """Writes the pages; or, with --check, says where they aren't what would be written, and gives False."""
    faults = sum(judge(name, made, '--check' in words) for name, made in [('EVENTS.md', events_page), ('PROTOCOL.md', protocol_page)])
    for it in names.faults() if '--check' in words else ():
        print(f'states: {it}')
        faults += 1
    print(f'states: {len(EVENTS)} events, {len(ROWS)} rows, {faults} faults')
    return not faults
