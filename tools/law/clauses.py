"""The law as specs/Law.antt and specs/Shape.antt state it: its groups, their clauses, and the fields that they read."""
import os
import re
from dataclasses import dataclass

TOP = os.path.dirname(os.path.dirname(os.path.dirname(os.path.abspath(__file__))))
CRATE = os.path.join(TOP, 'crates', 'sci_core')


def read(*parts):
    """The text of a file of the crate."""
    with open(os.path.join(CRATE, *parts), encoding='utf-8') as file:
        return file.read()


SHAPE_TEXT = read('specs', 'Shape.antt')
LAW_TEXT = read('specs', 'Law.antt')


@dataclass
class Clause:
    """One clause: `group.name`, its variables with their types, its premises and its conclusion."""
    group: str
    name: str
    variables: list
    premises: list
    conclusion: str

    @property
    def key(self):
        return f'{self.group}.{self.name}'

    @property
    def binders(self):
        """Names for a lambda that proves the clause: the variables, a name for each premise, one for a refuted end."""
        names = [name for name, _ in self.variables]
        names += [f'h{n + 1}' for n in range(len(self.premises))]
        return names + ['hn'] if '≢' in self.conclusion else names


def parse_clause(group, name, text):
    """Reads `(i j : ℕ) → A → B → C`."""
    variables, premises = [], []
    *before, conclusion = [part.strip() for part in text.split('→')]
    for part in before:
        if re.fullmatch(r'(\([\w ]+ : \w+\) ?)+', part):
            for names, kind in re.findall(r'\(([\w ]+) : (\w+)\)', part):
                variables += [(each, kind) for each in names.split()]
        else:
            premises.append(part)
    return Clause(group, name, variables, premises, conclusion)


def records(text):
    """The records of a spec: name and body."""
    return dict(re.findall(r'pub record (\w+) [^\n]*where\n((?:  .*\n)+)', text))


def load():
    """The groups of the record `Law`, in order, each with its clauses."""
    bodies = records(LAW_TEXT)
    groups = re.findall(r'  pub (\w+) : (\w+) ', bodies['Law'])
    return {group: [parse_clause(group, name, text)
                    for name, text in re.findall(r'  pub (\w+) : (.*)\n', bodies[record])]
            for group, record in groups}


GROUPS = load()
CLAUSES = [clause for clauses in GROUPS.values() for clause in clauses]
LINKS = re.findall(r'  pub (\w+) : ', records(LAW_TEXT)['Below'])
