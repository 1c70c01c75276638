"""Asks the solver whether a row keeps the law, and shows the state that breaks it where it doesn't. Needs z3 for Python."""
import time

from z3 import Not, Solver, is_true, sat, unsat

from clauses import CLAUSES
from rows import LINE, ROWS
from solver import LINK, NODE, SLOT, Search, formula

# How long the solver may take for one clause, in milliseconds.
LIMIT = 10000


def find_rows(word):
    """The rows of this name, or of this event."""
    found = [row for row in ROWS.values() if word in (row.name, row.event)]
    if not found:
        raise SystemExit(f'no row {word}; the rows are: ' + ' '.join(ROWS))
    return found


def find_clauses(words):
    """All clauses, or those of these names, `group.name` or a group."""
    if not words:
        return CLAUSES
    found = [clause for clause in CLAUSES if clause.key in words or clause.group in words]
    if not found:
        raise SystemExit(f'no clause {" ".join(words)}; the clauses are: ' + ' '.join(each.key for each in CLAUSES))
    return found


class Shown:
    """A state of a model, in words."""

    def __init__(self, search, model):
        self.search, self.model, self.names = search, model, {}
        # The law is asked at the nodes that the row and the clause name: no other node of the model is bound by it.
        named = {str(self.value(term)) for _, term in search.terms()}
        nodes = [node for node in model.get_universe(NODE) or [] if str(node) in named]
        nodes.sort(key=lambda node: -self.number(search.step.before.rank(node)))
        me = self.value(search.step.env['me'])
        count = 0
        for node in nodes:
            self.names[str(node)] = 'me' if node.eq(me) else f'n{count}'
            count += not node.eq(me)
        self.nodes = nodes

    def value(self, term):
        return self.model.eval(term, model_completion=True)

    def number(self, term):
        return self.value(term).as_long()

    def name(self, term):
        """A value as a word: a node by its name, an option by what is in it, a kind without its prefix."""
        value = self.value(term)
        if value.sort() == NODE:
            return self.names.get(str(value), 'another')
        if value.sort() in (LINK, SLOT):
            sort = LINK if value.sort() == LINK else SLOT
            return '-' if is_true(self.value(value == sort.none)) else self.name(sort.of(value))
        text = str(value)
        for front in ('kind_', 'phase_', 'state_'):
            text = text.removeprefix(front)
        return text.replace('Line!val!', 'line ')

    def tag(self, state, node):
        held = ' held' if is_true(self.value(state.held(node))) else ''
        return f'{self.name(state.kind(node)).upper()} forw {self.name(state.forw(node))} back {self.name(state.back(node))}{held}'

    def step(self, state, node):
        """The pending step, with what it keeps."""
        phase = self.name(state.phase(node))
        parts = [f'kept {self.name(state.kept(node))}'] if self.name(state.kept(node)) != '-' else []
        parts += [word for word, field in (('flag', state.flag), ('copy', state.copy)) if is_true(self.value(field(node)))]
        if is_true(self.value(state.seen(node))):
            parts.append(f'seen {self.name(state.seen_forw(node))} {self.name(state.seen_back(node))}')
        return phase + (f' ({", ".join(parts)})' if parts else '')

    def lines(self, state):
        """Memory's word, the nodes by rank, and then those outside the list."""
        lent = ' lent' if is_true(self.value(state.lent)) else ''
        yield f'    memory {self.name(state.state).upper()} {self.name(state.head)}{lent}, slot {self.name(state.memory_slot)};' \
              f' value {self.name(state.value)}, last front {self.name(state.last_front)}'
        for node in sorted(self.nodes, key=lambda each: -self.number(state.rank(each))):
            place = 'listed ' if self.number(state.rank(node)) > 0 else 'outside'
            slot = self.name(state.slot(node))
            yield f'    {place} {self.names[str(node)]:4} {self.tag(state, node):38} {self.step(state, node):34} slot {slot}'


def started(search):
    """A solver with the row's premises and every instance of the law before it."""
    solver = Solver()
    solver.set('timeout', LIMIT)
    solver.add(search.base + list(search.instances.values()))
    return solver


def ask_clause(search, solver, clause):
    """Whether the clause follows after the row: True, None where the solver didn't answer, or the model that breaks it."""
    supply, args = iter(search.open), []
    for _, kind in clause.variables:
        args.append(search.open_line[1] if kind == LINE else next(supply)[1])
    solver.push()
    solver.add(Not(formula(clause, search.step.after, args)))
    answer = solver.check()
    model = solver.model() if answer == sat else None
    solver.pop()
    return (True if answer == unsat else model), args


def show(search, clause, model, args):
    """Prints the state before and after, and where the clause fails."""
    shown = Shown(search, model)
    at = ', '.join(f'{name} = {shown.name(arg)}' for (name, _), arg in zip(clause.variables, args))
    print(f'{search.step.row.name}: {clause.key} does not follow, at {at or "no node"}:')
    text = ' -> '.join(clause.premises + [clause.conclusion])
    print(f'    {text}')
    print('  before:')
    print('\n'.join(shown.lines(search.step.before)))
    print('  after:')
    print('\n'.join(shown.lines(search.step.after)), flush=True)


def ask(word, words):
    """Asks for each of these clauses after each row of this name; True if all follow."""
    kept = True
    for row in find_rows(word):
        start, search, count = time.time(), Search(row), 0
        solver = started(search)
        for clause in find_clauses(words):
            answer, args = ask_clause(search, solver, clause)
            if answer is True:
                count += 1
                continue
            kept = False
            if answer is None:
                print(f'{row.name}: {clause.key} not found in {LIMIT // 1000} seconds', flush=True)
            else:
                show(search, clause, answer, args)
        print(f'{row.name}: {count} clauses follow ({time.time() - start:.1f} s)', flush=True)
    return kept
