"""Writes the proof files: one for each event, in proofs/Keeping."""
import json
import os
import re

from clauses import CRATE, GROUPS, LINKS
from rows import EVENTS, ROWS, paren, step_text

HINTS = os.path.join(os.path.dirname(os.path.abspath(__file__)), 'hints.json')
FOLDER = os.path.join(CRATE, 'proofs', 'Keeping')
PHASES = ('Idle Holding Queueing Fetching InQueue Copying Ready Converting Purging Advancing Clearing Leaving Promoted '
          'WritingBack Parted Rolling Unlinked').split()
WIDTH = 140
IMPORTS = [
    ('Rattle.std.proofs.Common', '◌≡◌ ◌≢◌ ◌⊎◌ ℕ ◌+◌ ◌<◌ ◌≤◌ Bool true false cond Option Some None ap arith'.split()),
    ('Rattle.std.proofs.lemmas.Bool.Decides', ['nat_tests']),
    ('Rattle.sci_words.specs.declared.tags.Kind', ['Kind']),
    ('Rattle.sci_words.specs.declared.tags.Tag', ['Tag']),
    ('Rattle.sci_words.specs.declared.memory.Mem', ['Mem']),
    ('Rattle.sci_words.specs.declared.memory.MemState', ['MemState']),
    ('Rattle.sci_core.specs.declared.lines.Line', ['Line']),
    ('Rattle.sci_core.specs.declared.pending.Pending', ['Pending']),
    ('Rattle.sci_core.specs.State', 'State update word invalid held_word unheld_word memory_word lent_word unlent_word blank'.split()),
    ('Rattle.sci_core.specs.Shape', PHASES + ['link', 'shape']),
    ('Rattle.sci_core.specs.Law', ['Witness', 'Law', 'Below', 'can_be_held']),
    ('Rattle.sci_core.proofs.Order', 'pop push_first push_next'.split()),
    ('Rattle.sci_core.proofs.Fields', 'StepFields TagFields MemFields step_fields tag_fields mem_fields'.split()),
]


def load_hints():
    """What the proofs of each row need. `alone`: the groups and clauses that follow from what they were before; `needs`:
    for other clauses the instances of the law before, as antt terms."""
    known = {}
    if os.path.exists(HINTS):
        with open(HINTS, encoding='utf-8') as file:
            known = json.load(file)
    return {row: known.get(row, {'alone': [], 'needs': {}}) for row in ROWS}


def save_hints(hints):
    """Keeps the hints, without instances that nothing needs any more."""
    for row in hints.values():
        row['alone'] = sorted(row['alone'])
        row['needs'] = {key: items for key, items in row['needs'].items()
                        if not {key, key.split('.')[0]} & set(row['alone'])}
    with open(HINTS, 'w', encoding='utf-8') as file:
        json.dump(hints, file, indent=1, ensure_ascii=False, sort_keys=True)
        file.write('\n')


def in_state(text):
    """Turns `s.kind x` into `(s.tags x).kind`, and so on, as a State has it."""
    text = re.sub(r'\(s\.(kind|held|forw|back) ([\w.]+)\)', r'(s.tags \2).\1', text)
    text = re.sub(r'\bs\.(kind|held|forw|back) ([\w.]+)', r'(s.tags \2).\1', text)
    text = re.sub(r'\bs\.(state|lent)\b', r's.memory.\1', text)
    text = re.sub(r'\bs\.head\b', 's.memory.forw', text)
    return re.sub(r'\bs\.slot\b', 's.slots', text)


def premises(row):
    """The premises of a row: names and texts."""
    got = [('pending', 's.steps me ≡ ' + step_text(row.step))]
    got += [(f'{node}_word', f's.tags {node} ≡ {each.text}') for node, each in row.before.items()]
    if row.memory_before:
        got.append(('memory_word_is', f's.memory ≡ {row.memory_before.text}'))
    return [(name, in_state(text)) for name, text in got + row.needs]


def after(row):
    """The state after, as a record update."""
    parts = []
    if row.memory:
        parts.append(f'memory = {row.memory.text}')
    parts += [f'tags = update s.tags {node} {paren(each.text)}' for node, each in row.words.items()]
    parts.append(f'steps = update s.steps me {paren(step_text(row.after))}')
    for place, slot in row.slots.items():
        parts.append(f'memory_slot = {slot}' if place == 'memory' else f'slots = update s.slots {place} {slot}')
    return ''.join(f'  {in_state(part)};\n' for part in parts)


def names(row):
    """The row's arguments by name."""
    return ''.join(f' {name}' for name, _ in row.args)


def abbreviation(row):
    """The state after a row, by name."""
    kinds = ''.join((f'({kind})' if '×' in kind else kind) + ' → ' for _, kind in row.args)
    return (f'-- {row.says}\nabbrev pub after_{row.name} : State → ℕ → {kinds}State\n'
            f'after_{row.name} s me{names(row)} = record s {{\n{after(row)}}}\n')


def signature(name, begin, row, given, end):
    """A lemma's signature, with lines for its arguments, for each premise and for its end."""
    first = wrapped(f'pub {name} :', begin + [f'({each} : {kind})' for each, kind in row.args])
    middle = '\n    → '.join(f'({each} : {text})' for each, text in given)
    return f'{first}\n    → {middle}\n    → {end}\n'


def heading(name, begin, row, given):
    """The names that a lemma's proof binds."""
    *before, last = begin + [each for each, _ in row.args] + [each for each, _ in given]
    return wrapped(name, before + [f'{last} =']) + '\n'


def field_facts(row):
    """What the equations of the premises say of each field, in place of them."""
    lines = [f'pending : StepFields (s.steps me) {paren(step_text(row.step))} = step_fields pending']
    for node, each in row.before.items():
        lines.append(f'{node}_word : TagFields (s.tags {node}) {paren(each.text)} = tag_fields {node}_word')
    if row.memory_before:
        lines.append(f'memory_word_is : MemFields s.memory {paren(row.memory_before.text)} = mem_fields memory_word_is')
    return ''.join(f'    let {in_state(line)} in\n' for line in lines)


def memory_fact(row):
    """Memory's link, where the order of the chain after the row is proved from it."""
    if not (row.memory_before and row.special):
        return ''
    return (f'    let memory_forw : s.memory.forw ≡ {row.memory_before.forw} = '
            'ap (λ (m : Mem). m.forw) memory_word_is in\n')


def clause_proof(clause, items):
    """The proof of one clause, from the given instances or from the clause before, on lines that are not too long."""
    parts = [f'λ {" ".join(clause.binders)}.'] if clause.binders else []
    parts += [f'let c{n} = {in_state(item)} in' for n, item in enumerate(items)]
    used = ''.join(f', c{n}' for n in range(len(items)))
    parts += ['let o : ℕ = 0 in', f'grind (arith, nat_tests{used})']
    return wrapped(f'        {clause.name} =', parts, ' ' * 11)


def wrapped(line, parts, indent='   '):
    """The parts after a first line, as lines of at most WIDTH."""
    lines = [line]
    for part in parts:
        if len(lines[-1]) + len(part) >= WIDTH:
            lines.append(indent)
        lines[-1] += f' {part}'
    return '\n'.join(lines)


def plain_proof(key):
    """The proof of a clause or a group by itself."""
    return f'let c = o.{key} in let o : ℕ = 0 in grind (arith, nat_tests, c)'


def law_proof(row, hints):
    """The record of the law after. A group or a clause that stands alone follows from what it was before; any other clause
    follows from its instances."""
    lines = []
    for group, clauses in GROUPS.items():
        if group in row.special:
            lines.append(f'      {group} = {in_state(row.special[group])};')
        elif group in hints['alone']:
            lines.append(f'      {group} = {plain_proof(group)};')
        else:
            lines.append(f'      {group} = record {{')
            for clause in clauses:
                if clause.key in hints['alone']:
                    lines.append(f'        {clause.name} = {plain_proof(clause.key)};')
                else:
                    lines.append(clause_proof(clause, hints['needs'].get(clause.key, [f'o.{clause.key}'])) + ';')
            lines.append('      };')
    return '    record {\n' + '\n'.join(lines) + '\n    }\n'


def law_lemma(row, hints):
    """The lemma that a row keeps the law."""
    given = premises(row)
    witness = f'(record g {{ {"; ".join(f"{k} = {v}" for k, v in row.witness.items())} }})' if row.witness else 'g'
    text = signature(f'{row.name}_keeps_law', ['(s : State)', '(g : Witness)', '(o : Law (shape s) g)', '(me : ℕ)'], row,
                     given, f'Law (shape (after_{row.name} s me{names(row)})) {witness}')
    text += heading(f'{row.name}_keeps_law', ['s', 'g', 'o', 'me'], row, given) + memory_fact(row) + field_facts(row)
    for name, says, proof in row.facts:
        text += f'    let {name} : {in_state(says)} = {in_state(proof)} in\n'
    return text + law_proof(row, hints)


def links_lemma(row):
    """The lemma that a row keeps all links below the number of nodes."""
    given = premises(row)[:1 + len(row.before) + bool(row.memory_before)]
    given += [(name, in_state(text)) for name, text in row.bounds]
    begin = ['(n : ℕ)', '(s : State)', '(b : Below n (shape s))', '(me : ℕ)', '(me_below : me < n)']
    text = signature(f'{row.name}_keeps_links', begin, row, given,
                     f'Below n (shape (after_{row.name} s me{names(row)}))')
    text += heading(f'{row.name}_keeps_links', ['n', 's', 'b', 'me', 'me_below'], row, given)
    text += field_facts(row)
    return text + f'    grind (arith, nat_tests, {", ".join(f"b.{link}" for link in LINKS)})\n'


def imports(text):
    """The imports that a text uses."""
    lines = []
    for module, offered in IMPORTS:
        used = [each for each in offered if uses(text, each)]
        if used:
            lines.append(f'use {module}.{{{", ".join(used)}}}')
    return '\n'.join(lines) + '\n'


def uses(text, name):
    """Whether a text uses an imported name."""
    text = re.sub(r'^--.*$', '', text, flags=re.M)
    if name.startswith('◌'):
        return f' {name[1:-1]} ' in text
    return re.search(rf'(?<![\w.]){re.escape(name)}(?!\w| = )', text) is not None


def event_file(event, hints):
    """The text of an event's proof file."""
    rows = [row for row in ROWS.values() if row.event == event]
    parts = []
    for row in rows:
        parts += [abbreviation(row), law_lemma(row, hints[row.name]), links_lemma(row)]
    body = '\n'.join(parts)
    return imports(body) + '\n' + body


def write(path, text):
    """Writes a file unless it is so already."""
    if not os.path.exists(path) or open(path, encoding='utf-8').read() != text:
        with open(path, 'w', encoding='utf-8') as file:
            file.write(text)


def write_all(hints):
    """Writes the files of the events, and the list of modules."""
    os.makedirs(FOLDER, exist_ok=True)
    for event in EVENTS:
        write(os.path.join(FOLDER, f'{event}.antt'), event_file(event, hints))
    write(FOLDER + '.antt', '-- Each kind of exchange and Look keeps the law of a line.\n'
          + ''.join(f'pub mod {event}\n' for event in EVENTS))
