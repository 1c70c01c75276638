"""Compares the names of events, and the order that gives their numbers, wherever else they stand."""

import pathlib
import re

from rows import EVENTS

CRATES = pathlib.Path(__file__).resolve().parents[2] / 'crates'
NUMBERED = ['Look', *(event for event in EVENTS if event != 'Look')]
# what a C name can't be, since a tag's kind has it
OF_EVENTS = {'SCI_EVENT_CONVERT': 'SCI_CONVERT', 'SCI_EVENT_ROLL': 'SCI_ROLL'}


def numbers(text):
    """The names of the definition, by their numbers."""
    found = {int(number): name for name, number in re.findall(r'^event_number \(?Event\.(\w+).* = (\d+)$', text, re.M)}
    return [found[number] for number in sorted(found)]


def enumerators(text):
    """The names of the header's enumeration of events, in its order."""
    names = re.search(r'enum \{ /\* events \*/([^}]*)\}', text)[1].split(',')
    return [''.join(part.capitalize() for part in OF_EVENTS.get(it.strip(), it.strip()).split('_')[1:]) for it in names]


# Where names stand in the order of their numbers, and how they are read there.
ORDERED = {
    'sci_core/specs/EventNumber.antt': numbers,
    'sci_c/sci.h': enumerators,
    'sci_trace/src/event_names.rt': lambda text: re.findall(r'\*b"(\w+)', text),
    'sci_pages/src/run/rows.rt': lambda text: ['Look', *re.findall(r'^  ([A-Z]\w+):', text, re.M)],
}
# Where each stands once, in whatever order.
READ = ('sci_logs/src/event_names.rt', 'sci_logs/src/event_text.rt')


def faults():
    """What isn't as the table has it."""
    for name, read in ORDERED.items():
        if read((CRATES / name).read_text(encoding='utf-8')) != NUMBERED:
            yield f'crates/{name} has other events, or another order, than tools/law/rows.py'
    found = [name for file in READ for name in re.findall(r'behind\(b"([A-Z]\w+)"', (CRATES / file).read_text(encoding='utf-8'))]
    if sorted(found) != sorted(NUMBERED):
        yield f'crates/{READ[0]} and {READ[1].rpartition("/")[2]} read other events than those of tools/law/rows.py'
