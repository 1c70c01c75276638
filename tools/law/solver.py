"""Finds the instances of the law before a row that a clause after it needs. Needs z3 for Python (Debian's python3-z3)."""
import itertools
import re

from z3 import (And, BoolVal, Bool, BoolSort, Const, Datatype, DeclareSort, EnumSort, Function, If, Implies, IntSort, IntVal,
                Not, Or, Solver, sat, unsat)

from clauses import CLAUSES, LAW_TEXT, SHAPE_TEXT, records
from rows import LINE, ROWS, TAG, projections

KINDS = 'Invalid Queued Fresh Dirty Convert Purging Leaving Valid Roll Purged'.split()
STATES = 'Home Fresh Gone'.split()
PHASES = re.findall(r'^  (\w+) : Phase$', SHAPE_TEXT, re.M)


def option(name, sort):
    """The sort of options over a sort."""
    made = Datatype(name)
    made.declare('none')
    made.declare('some', ('of', sort))
    return made.create()


NODE, LINES = DeclareSort('Node'), DeclareSort('Line')
LINK, SLOT = option('Link', NODE), option('Slot', LINES)
KIND, KIND_VALUES = EnumSort('Kind', [f'kind_{each}' for each in KINDS])
STATE, STATE_VALUES = EnumSort('State', [f'state_{each}' for each in STATES])
PHASE, PHASE_VALUES = EnumSort('Phase', [f'phase_{each}' for each in PHASES])
CONSTANTS = {'true': BoolVal(True), 'false': BoolVal(False), 'blank': Const('blank', LINES)}
CONSTANTS.update({f'Kind.{name}': value for name, value in zip(KINDS, KIND_VALUES)})
CONSTANTS.update({f'MemState.{name}': value for name, value in zip(STATES, STATE_VALUES)})
CONSTANTS.update(dict(zip(PHASES, PHASE_VALUES)))
SORTS = {'Kind': KIND, 'Bool': BoolSort(), 'Option ℕ': LINK, 'Phase': PHASE, 'ℕ': NODE, 'Line': LINES, 'Option Line': SLOT,
         'MemState': STATE}


def fields():
    """The fields of Shape and Witness: whether each is a function of the node, and its sort."""
    got = {}
    for body in (records(SHAPE_TEXT)['Shape'], records(LAW_TEXT)['Witness']):
        for name, kind in re.findall(r'  pub (\w+) : (.*)\n', body):
            function = kind.startswith('ℕ → ')
            got[name] = (function, IntSort() if name == 'rank' else SORTS[kind[4:] if function else kind])
    return got


FIELDS = fields()
TESTS = {found[1]: [(line.split(' = ')[0].split()[1:], line.split(' = ')[1].strip())
                    for line in found[3].strip().split('\n')]
         for found in re.finditer(r'abbrev pub (\w+) : ((?:Kind|Phase|Bool| → )+)\n((?:\1 .*\n)+)', LAW_TEXT)}


class State:
    """A value, or a function of the node, for each field of Shape and Witness."""

    def __init__(self, name):
        for field, (function, sort) in FIELDS.items():
            made = Function(f'{name}_{field}', NODE, sort) if function else Const(f'{name}_{field}', sort)
            setattr(self, field, made)

    def again(self):
        """A state with the same fields, which can be set."""
        made = State.__new__(State)
        made.__dict__.update(self.__dict__)
        return made


def run_test(name, args):
    """A test on kinds and steps, such as is_front, as it is defined line by line."""
    result = BoolVal(False)
    for patterns, value in reversed(TESTS[name]):
        where, bound = [], {}
        for pattern, arg in zip(patterns, args):
            if pattern in CONSTANTS:
                where.append(arg == CONSTANTS[pattern])
            elif pattern != '_':
                bound[pattern] = arg
        value = CONSTANTS[value] if value in CONSTANTS else bound[value]
        result = If(And(*where), value, result) if where else value
    return result


def parse(tokens):
    """Reads an application up to a closing parenthesis."""
    parts = []
    while tokens and tokens[0] != ')':
        token = tokens.pop(0)
        if token == '(':
            parts.append(parse(tokens))
            tokens.pop(0)
        else:
            parts.append(token)
    return parts if len(parts) != 1 else parts[0]


def name_value(name, env, state, want):
    """The value of a name."""
    if name in env:
        return env[name]
    if name in CONSTANTS:
        return CONSTANTS[name]
    if name == 'None':
        return SLOT.none if want == SLOT else LINK.none
    return IntVal(int(name)) if name.isdigit() else getattr(state, name.split('.')[-1])


def evaluate(term, env, state, want=None):
    """The value of a parsed term; `want` is the sort of a None."""
    if isinstance(term, str):
        return name_value(term, env, state, want)
    head, *args = term
    if '+' in term:
        at = term.index('+')
        left, right = (part if len(part) > 1 else part[0] for part in (term[:at], term[at + 1:]))
        return evaluate(left, env, state) + evaluate(right, env, state)
    if head == 'update':
        old, place = evaluate(args[0], env, state), evaluate(args[1], env, state)
        new = evaluate(args[2], env, state, old(place).sort())
        return lambda node: If(node == place, new, old(node))
    if head == 'cond':
        yes = evaluate(args[1], env, state)
        return If(evaluate(args[0], env, state), yes, evaluate(args[2], env, state, yes.sort()))
    values = [evaluate(each, env, state) for each in args]
    if head == 'Some':
        return (LINK if values[0].sort() == NODE else SLOT).some(values[0])
    if head == 'link':
        return LINK.of(values[0])
    if isinstance(head, str) and head in TESTS:
        return run_test(head, values)
    return evaluate(head, env, state)(*values)


def value(text, env, state, want=None):
    """The value of a text."""
    return evaluate(parse(re.findall(r'[()]|[^\s()]+', text)), env, state, want)


def relation(text, env, state):
    """The formula of `a ≡ b`, `a < b` and so on, or of two of these joined by ⊎."""
    text = text.strip()
    if '⊎' in text:
        return Or(*[relation(part.strip()[1:-1], env, state) for part in text.split('⊎')])
    left, sign, right = re.match(r'(.*) (≡|≢|<|≤) (.*)$', text).groups()
    one = value(left, env, state)
    two = value(right, env, state, one.sort())
    return {'≡': lambda: one == two, '≢': lambda: one != two, '<': lambda: one < two, '≤': lambda: one <= two}[sign]()


def formula(clause, state, args):
    """A clause at these values of its variables."""
    env = {name: arg for (name, _), arg in zip(clause.variables, args)}
    return Implies(And(*[relation(each, env, state) for each in clause.premises]), relation(clause.conclusion, env, state))


class Step:
    """A row over states of any number of nodes: the state before and after, the premises, the names in scope."""

    def __init__(self, row):
        self.row, self.before, self.env = row, State('s'), {'me': Const('me', NODE)}
        for name, kind in row.args:
            if kind == TAG:
                for part, sort in (('kind', KIND), ('held', BoolSort()), ('forw', LINK), ('back', LINK)):
                    self.env[f'{name}.{part}'] = Const(f'{name}.{part}', sort)
            elif kind in SORTS:
                self.env[name] = Const(f'arg_{name}', SORTS[kind])
        self.premises = self.needs()
        self.after = self.changed()

    def value(self, text, sort):
        return value(text, self.env, self.before, sort)

    def needs(self):
        """What the state before is."""
        row, state = self.row, self.before
        made = [relation(text, self.env, state) for _, text in row.needs]
        for name, text in projections(row.step).items():
            made.append(getattr(state, name)(self.env['me']) == self.value(text, FIELDS[name][1]))
        for node, each in row.before.items():
            for part in ('kind', 'held', 'forw', 'back'):
                made.append(getattr(state, part)(self.env[node]) == self.value(getattr(each, part), FIELDS[part][1]))
        if row.memory_before:
            for name, part in (('state', 'state'), ('lent', 'lent'), ('head', 'forw')):
                made.append(getattr(state, name) == self.value(getattr(row.memory_before, part), FIELDS[name][1]))
        return made

    def changed(self):
        """The state after."""
        row, made = self.row, self.before.again()

        def put(name, node, text):
            place, new, old = self.env[node], self.value(text, FIELDS[name][1]), getattr(made, name)
            setattr(made, name, lambda each: If(each == place, new, old(each)))
        for node, each in row.words.items():
            for part in ('kind', 'held', 'forw', 'back'):
                put(part, node, getattr(each, part))
        for name, text in projections(row.after).items():
            put(name, 'me', text)
        for place, text in row.slots.items():
            if place == 'memory':
                made.memory_slot = self.value(text, SLOT)
            else:
                put('slot', place, text)
        if row.memory:
            for name, part in (('state', 'state'), ('lent', 'lent'), ('head', 'forw')):
                setattr(made, name, self.value(getattr(row.memory, part), FIELDS[name][1]))
        for name, text in row.witness.items():
            setattr(made, name, self.value(text, FIELDS[name][1]))
        return made


class Search:
    """Every instance of the law before a row at the terms that it names, and the search for those that a clause needs."""

    def __init__(self, row):
        self.step = Step(row)
        self.open = [(f'@{n}', Const(f'open_{n}', NODE)) for n in range(3)]
        self.open_line = ('@line', Const('open_line', LINES))
        self.instances = {}
        self.collect()
        self.base = list(self.step.premises) + [self.step.before.rank(each) >= 0 for _, each in self.terms()]

    def terms(self):
        """The nodes that instances may name."""
        state, env = self.step.before, self.step.env
        named = [(name, each) for name, each in env.items() if each.sort() == NODE]
        links = [('(link s.head)', LINK.of(state.head)), ('(link (s.forw me))', LINK.of(state.forw(env['me']))),
                 ('(link (s.forw g.last_front))', LINK.of(state.forw(state.last_front)))]
        if 'target' in env:
            links.append(('(link (s.forw target))', LINK.of(state.forw(env['target']))))
        links += [(f'(link {name})', LINK.of(each)) for name, each in env.items() if each.sort() == LINK]
        return self.open + named + [('g.last_front', state.last_front)] + links

    def collect(self):
        """Fills in the instances."""
        state = self.step.before
        first = self.open[0][1]
        witnesses = [('(g.clearer @0)', state.clearer(first)), ('(g.copier @0)', state.copier(first)),
                     ('g.borrower', state.borrower)]
        lines = [self.open_line] + [(name, each) for name, each in self.step.env.items() if each.sort() == LINES]
        every = self.terms()
        few = [each for each in every if not each[0].startswith('(link') or each[0] == '(link (s.forw me))']
        for clause in CLAUSES:
            nodes = [name for name, kind in clause.variables if kind != LINE]
            pool = few if len(nodes) == 3 else every
            if clause.group in ('outside', 'slots', 'words', 'own'):
                pool = pool + witnesses
            choices = [lines if kind == LINE else pool for _, kind in clause.variables]
            for chosen in itertools.product(*choices):
                label = ' '.join([f'o.{clause.key}'] + [name for name, _ in chosen])
                self.instances[label] = formula(clause, state, [each for _, each in chosen])

    def solver(self, labels, goal, timeout):
        """Whether these instances prove the goal."""
        solver = Solver()
        solver.set('timeout', timeout)
        for each in self.base + [Not(goal)]:
            solver.add(each)
        for label in labels:
            solver.add(self.instances[label])
        return solver.check() == unsat

    def core(self, goal):
        """Instances that prove the goal, or None and the answer."""
        solver = Solver()
        solver.set('timeout', 15000)
        solver.set(unsat_core=True)
        labels = list(self.instances)
        for n, label in enumerate(labels):
            solver.assert_and_track(self.instances[label], Bool(f'L{n}'))
        for each in self.base + [Not(goal)]:
            solver.add(each)
        answer = solver.check()
        if answer != unsat:
            return None, solver.model() if answer == sat else None
        return [labels[int(str(each)[1:])] for each in solver.unsat_core()], None

    def find(self, clause):
        """The instances that a clause after the row needs, by their texts; None where there are not enough."""
        supply, names, args = iter(self.open), {}, []
        for name, kind in clause.variables:
            label, each = self.open_line if kind == LINE else next(supply)
            names[label] = name
            args.append(each)
        goal = formula(clause, self.step.after, args)
        core, model = self.core(goal)
        if core is None:
            return None, model
        unbound = re.compile(r'@\w+')
        worst = sorted(core, key=lambda each: (any(name not in names for name in unbound.findall(each)),
                                               'link' in each or 'g.c' in each, each), reverse=True)
        kept = list(worst)
        for label in worst:
            fewer = [each for each in kept if each != label]
            if self.solver(fewer, goal, 4000):
                kept = fewer
        return [unbound.sub(lambda found: names.get(found[0], found[0]), each) for each in kept], None


def instances(row, keys):
    """Instances for each of these clauses of a row: key -> terms, or None."""
    search, found = Search(row), {}
    for clause in CLAUSES:
        if clause.key in keys:
            found[clause.key], model = search.find(clause)
            if found[clause.key] is None:
                print('   ', row.name, clause.key, 'does not follow' if model else 'not found in time', flush=True)
    return found


def possible(row):
    """Whether the law and the premises of a row can be met together, at the terms that the row names."""
    search = Search(row)
    solver = Solver()
    for each in search.base:
        solver.add(each)
    for label, each in search.instances.items():
        if '@' not in label:
            solver.add(each)
    return solver.check() == sat
