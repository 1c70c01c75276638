"""Do the definitions that contracts cite follow from the law by ranks? Asked at a fixed number of nodes, where a solver can
walk the chain. It is no proof, but it finds a clause that the law lacks in a minute."""
import itertools

from z3 import And, Const, If, Implies, Not, Or, Solver, sat

from clauses import CLAUSES
from rows import LINE
from solver import CONSTANTS, LINK, NODE, SLOT, State, formula

FRONT_KINDS = 'Queued Fresh Dirty Convert Purging Leaving'.split()
BODY_KINDS = 'Valid Roll Purged'.split()
VALID_KINDS = 'Fresh Dirty Convert Purging Valid'.split()
OWN_HAND = ('Holding Queueing Fetching InQueue Copying Ready Purging Advancing Clearing Leaving Promoted WritingBack '
            'Parted').split()
PARTING = 'Promoted WritingBack Parted Unlinked'.split()


class Line:
    """A line of `count` nodes that keeps the law by ranks, and the words that the definitions use."""

    def __init__(self, count):
        self.nodes = [Const(f'node_{n}', NODE) for n in range(count)]
        self.state = State('s')

    def law(self):
        """The law by ranks at every node, and what the types say."""
        state, made = self.state, [a != b for a, b in itertools.combinations(self.nodes, 2)]
        for clause in CLAUSES:
            lines = [SLOT.of(slot) for slot in [state.memory_slot] + [state.slot(i) for i in self.nodes]]
            choices = [lines if kind == LINE else self.nodes for _, kind in clause.variables]
            made += [formula(clause, state, chosen) for chosen in itertools.product(*choices)]
        for i in self.nodes:
            links = [f(i) for f in (state.forw, state.back, state.kept, state.word_forw, state.word_back, state.seen_forw,
                                    state.seen_back)]
            made += [self.below(each) for each in links + [state.head]]
            made += [self.among(each) for each in (state.clearer(i), state.copier(i), state.last_front, state.borrower)]
            made += [state.rank(i) >= 0, Implies(self.step(i, 'Advancing', 'Clearing', 'Promoted', 'Copying'),
                                                 state.kept(i) != LINK.none),
                     Implies(self.step(i, 'WritingBack'), state.kept(i) == LINK.none),
                     Implies(self.step(i, 'Unlinked'), state.seen_back(i) != LINK.none)]
        return made

    def among(self, node):
        return Or(*[node == each for each in self.nodes])

    def below(self, link):
        return Or(link == LINK.none, *[link == LINK.some(each) for each in self.nodes])

    def every(self, says, distinct=True):
        """That `says` holds for all choices of as many nodes as it has arguments."""
        choices = itertools.product(self.nodes, repeat=says.__code__.co_argcount)
        return And(*[says(*chosen) for chosen in choices if not distinct or len(set(map(str, chosen))) == len(chosen)])

    def some(self, says):
        return Or(*[says(each) for each in self.nodes])

    def kind(self, node, *names):
        return Or(*[self.state.kind(node) == CONSTANTS[f'Kind.{name}'] for name in names])

    def step(self, node, *names):
        return Or(*[self.state.phase(node) == CONSTANTS[name] for name in names])

    def mode(self, name):
        return self.state.state == CONSTANTS[f'MemState.{name}']

    def inside(self, node):
        return self.state.rank(node) > 0

    def front(self, node):
        return And(self.inside(node), self.kind(node, *FRONT_KINDS))

    def body(self, node):
        return And(self.inside(node), self.kind(node, *BODY_KINDS))

    def names(self, link, node):
        return link == LINK.some(node)

    def next(self, one, other):
        return And(self.inside(one), self.names(self.state.forw(one), other))

    def last_front(self, node):
        return And(self.front(node), *[Implies(self.next(node, each), self.body(each)) for each in self.nodes
                                       if str(each) != str(node)])

    def first_body(self, node):
        return And(self.body(node), *[Implies(self.next(each, node), self.front(each)) for each in self.nodes
                                      if str(each) != str(node)])

    def word(self, node, kind, forw, back):
        state = self.state
        return And(self.kind(node, kind), state.forw(node) == forw, state.back(node) == back, Not(state.held(node)))

    def stands(self, node, victim):
        """The word that a node keeps is another's word."""
        state = self.state
        return And(state.kind(victim) == state.word_kind(node), state.forw(victim) == state.word_forw(node),
                   state.back(victim) == state.word_back(node))

    def copies(self, node):
        """The nodes that copy a held one."""
        return self.some(lambda each: And(self.step(each, 'Copying'), self.names(self.state.kept(each), node)))


def chain(line):
    """The chain, and what is in it."""
    state = line.state
    yield 'head', line.every(lambda i: Implies(state.head == LINK.none, Not(line.inside(i))))
    yield 'top', line.every(lambda i, j: Implies(line.names(state.head, i), And(line.inside(i), state.rank(j) <= state.rank(i))), False)
    yield 'apart', line.every(lambda i, j: Not(And(line.inside(i), state.rank(i) == state.rank(j))))
    yield 'next', line.every(lambda i, j: Implies(line.next(i, j), And(line.inside(j), state.rank(j) < state.rank(i))), False)
    yield 'no gap', line.every(lambda i, j, m: Implies(And(line.next(i, j), state.rank(m) < state.rank(i)),
                                                       state.rank(m) <= state.rank(j)), False)
    yield 'last', line.every(lambda i, m: Implies(And(line.inside(i), state.forw(i) == LINK.none, state.rank(m) < state.rank(i)),
                                                  state.rank(m) == 0), False)
    yield 'no Invalid entry', line.every(lambda i: Implies(line.inside(i), Not(line.kind(i, 'Invalid'))))
    yield 'the first is a front', line.every(lambda i: Implies(line.names(state.head, i), line.kind(i, *FRONT_KINDS)))
    yield 'fronts come first', line.every(lambda i, j: Implies(And(line.next(i, j), line.front(j)), line.front(i)))
    yield 'waiting fronts', line.every(lambda i: Implies(And(line.front(i), Not(line.last_front(i))), Or(
        And(line.kind(i, 'Queued'), line.step(i, 'Fetching', 'InQueue')), And(line.kind(i, 'Leaving'), line.step(i, 'Promoted')))))
    yield 'last front queued', line.every(lambda i: Implies(And(line.last_front(i), line.kind(i, 'Queued')), Or(
        line.step(i, 'Copying', 'Ready'), state.forw(i) == LINK.none)))
    yield 'last front leaving', line.every(lambda i: Implies(And(line.last_front(i), line.kind(i, 'Leaving')),
                                                             line.step(i, 'Leaving')))
    yield 'purged entry', line.every(lambda i: Implies(line.inside(i), line.kind(i, 'Purged') == And(
        line.first_body(i), line.some(lambda j: And(line.last_front(j), line.step(j, 'Advancing'), line.names(state.kept(j), i))))))


def own_word(line):
    """A node's own word, by its pending step."""
    state, none = line.state, LINK.none

    def says(i):
        kept, settled = state.kept(i), line.kind(i, 'Fresh', 'Dirty', 'Valid')
        return And(
            Implies(line.step(i, 'Idle'), Or(settled, line.kind(i, 'Invalid', 'Purged'))),
            Implies(line.step(i, 'Holding'), And(line.stands(i, i), state.held(i), settled)),
            Implies(line.step(i, 'Queueing', 'Fetching', 'InQueue', 'Copying', 'Ready'), line.word(i, 'Queued', kept, none)),
            Implies(line.step(i, 'Converting'), line.word(i, 'Convert', kept, none)),
            Implies(line.step(i, 'Purging', 'Clearing'), line.word(i, 'Purging', state.forw(i), none)),
            Implies(line.step(i, 'Advancing'), line.word(i, 'Purging', kept, none)),
            Implies(line.step(i, 'Leaving'), line.word(i, 'Leaving', state.forw(i), none)),
            Implies(line.step(i, 'Promoted', 'Parted'), line.word(i, 'Leaving', kept, none)),
            Implies(line.step(i, 'WritingBack'), line.word(i, 'Leaving', none, none)),
            Implies(line.step(i, 'Queueing', 'WritingBack', 'Parted', 'Unlinked'), Not(line.inside(i))),
            Implies(line.step(i, 'Rolling'), line.word(i, 'Roll', state.forw(i), state.back(i))),
            Implies(line.step(i, 'Unlinked'), line.word(i, 'Roll', kept, state.seen_back(i))))
    yield 'own word', line.every(says)
    yield 'outside', line.every(lambda i: Implies(Not(line.inside(i)), Or(
        And(line.kind(i, 'Invalid'), line.step(i, 'Idle')), And(line.kind(i, 'Queued'), line.step(i, 'Queueing')),
        And(line.kind(i, 'Leaving'), line.step(i, 'WritingBack', 'Parted')), And(line.kind(i, 'Roll'), line.step(i, 'Unlinked')),
        And(line.kind(i, 'Purged'), line.some(lambda j: And(line.step(j, 'Clearing'), line.names(state.kept(j), i)))))))


def back_links(line):
    """Back links: where they point, and how far they may be behind."""
    state = line.state
    purger = lambda i: And(line.first_body(i), line.some(lambda j: And(line.last_front(j), line.kind(j, 'Purging'))))
    yield 'back is neighbour', line.every(lambda i, j: Implies(
        And(line.next(i, j), line.body(j), Not(line.kind(i, 'Roll', 'Purging'))), line.names(state.back(j), i)))
    yield 'back behind Roll', line.every(lambda i, j: Implies(And(line.next(i, j), line.kind(i, 'Roll'), Not(purger(i))), Or(
        line.names(state.back(j), i), state.back(j) == state.back(i))))
    yield 'back points forward', line.every(lambda i, j: Implies(
        And(line.body(i), line.names(state.back(i), j), line.inside(j)), state.rank(i) < state.rank(j)), False)
    yield 'back is inside', line.every(lambda i, j: Implies(
        And(line.body(i), line.names(state.back(i), j)), Not(line.step(j, *PARTING))), False)


def modes(line):
    """What the memory word says of the list."""
    state = line.state
    flagged = lambda i: state.flag(i)
    yield 'FRESH', line.every(lambda i: Implies(And(line.mode('Fresh'), line.inside(i)), And(
        Not(line.kind(i, 'Dirty', 'Purging')), Not(line.step(i, 'Copying')),
        Not(And(line.step(i, 'Fetching', 'InQueue', 'Ready', 'Leaving', 'Promoted', 'Converting'), flagged(i))),
        Implies(Or(line.kind(i, 'Queued'), line.step(i, 'Promoted')),
                And(Implies(line.step(i, 'InQueue'), state.copy(i)), state.line(i) == state.value)))))
    yield 'GONE, last front', line.every(lambda i: Implies(And(line.mode('Gone'), line.last_front(i)), Or(
        line.kind(i, 'Dirty', 'Purging'), And(line.kind(i, 'Convert', 'Leaving'), flagged(i)), line.step(i, 'Copying'),
        And(line.step(i, 'Ready'), flagged(i)),
        And(line.kind(i, 'Queued'), flagged(i), state.forw(i) == LINK.none, Or(line.step(i, 'Fetching'), state.copy(i)),
            state.line(i) == state.value))))
    yield 'GONE, waiting', line.every(lambda i: Implies(
        And(line.mode('Gone'), line.front(i), Not(line.last_front(i))),
        And(flagged(i), Or(And(line.step(i, 'InQueue'), Not(state.copy(i))), line.step(i, 'Promoted')))))


def slots(line):
    """Who has which slot, and that every copy is the value."""
    state = line.state
    lends = lambda i: line.step(i, 'Fetching', 'WritingBack')
    yield 'memory slot', And((state.memory_slot == SLOT.none) == state.lent, state.lent == line.some(lends),
                             line.every(lambda i, j: Not(And(lends(i), lends(j)))))
    yield 'own slot', line.every(lambda i: (state.slot(i) == SLOT.none) == Or(line.step(i, *OWN_HAND), line.copies(i)))
    yield 'one hand', line.every(lambda i, j, m: Not(And(
        line.step(i, 'Copying'), line.names(state.kept(i), m),
        Or(line.step(m, *OWN_HAND), And(str(i) != str(j), line.step(j, 'Copying'), line.names(state.kept(j), m))))), False)
    yield 'held bit', line.every(lambda i: state.held(i) == Or(line.step(i, 'Holding'), line.copies(i)))
    yield 'memory copy', Implies(Not(line.mode('Gone')), And(
        Implies(Not(state.lent), SLOT.of(state.memory_slot) == state.value),
        line.every(lambda i: Implies(lends(i), state.line(i) == state.value))))
    yield 'sharer copy', line.every(lambda i: Implies(line.kind(i, *VALID_KINDS), If(
        line.step(i, *OWN_HAND), state.line(i) == state.value,
        Or(line.some(lambda j: And(line.step(j, 'Copying'), line.names(state.kept(j), i), state.line(j) == state.value)),
           And(Not(line.copies(i)), SLOT.of(state.slot(i)) == state.value)))))
    yield 'leaving copy', line.every(lambda i: Implies(And(line.last_front(i), line.kind(i, 'Leaving')), state.line(i) == state.value))
    yield 'keeper copy', line.every(lambda i: Implies(And(line.mode('Gone'), line.last_front(i), line.step(i, 'Copying', 'Ready')),
                                                      state.line(i) == state.value))


def facts(line):
    """What a node has seen or keeps still fits."""
    state = line.state
    yield 'seen forward', line.every(lambda i: Implies(And(line.step(i, 'Purging', 'Leaving', 'Rolling'), state.seen(i)), Or(
        state.seen_forw(i) == state.forw(i), And(state.seen_forw(i) != LINK.none, *[
            Implies(And(line.names(state.seen_forw(i), j), line.inside(j), line.inside(i)), state.rank(j) >= state.rank(i))
            for j in line.nodes]))))
    older = lambda i: And(line.first_body(i), line.some(lambda j: And(
        line.last_front(j), line.kind(j, 'Purging'), line.names(state.back(i), j))), *[
            Implies(line.names(state.seen_back(i), j), And(Implies(line.inside(j), state.rank(j) > state.rank(i)),
                                                           Not(line.step(j, *PARTING)))) for j in line.nodes])
    yield 'seen back', line.every(lambda i: Implies(And(line.step(i, 'Rolling'), state.seen(i)),
                                                    Or(state.seen_back(i) == state.back(i), older(i))))
    yield 'told successor', line.every(lambda i: Implies(And(line.step(i, 'Rolling'), state.flag(i)), And(
        state.seen_forw(i) == state.forw(i), state.forw(i) != LINK.none,
        *[Implies(line.names(state.forw(i), j), Not(line.names(state.back(j), i))) for j in line.nodes])))
    yield 'untold successor', line.every(lambda i, j: Implies(
        And(line.step(i, 'Rolling'), Not(state.flag(i)), line.names(state.forw(i), j)), line.names(state.back(j), i)))
    yield 'seen unlinked', line.every(lambda i, j: Implies(
        And(line.step(i, 'Purging'), state.seen(i), line.names(state.seen_forw(i), j), line.step(j, 'Unlinked')),
        line.names(state.back(j), i)))
    kept = lambda i: [Implies(line.names(state.kept(i), j), line.stands(i, j)) for j in line.nodes]
    yield 'kept word', line.every(lambda i: And(
        Implies(line.step(i, 'Advancing', 'Clearing'), And(state.word_kind(i) == CONSTANTS['Kind.Purged'], *kept(i))),
        Implies(line.step(i, 'Copying'), And(state.word_kind(i) == CONSTANTS['Kind.Valid'],
                                             line.names(state.word_back(i), i), *kept(i)))))


def lent(line):
    """The lent memory word is the one that its borrower gives back."""
    state = line.state
    yield 'lent word', line.every(lambda i: And(
        Implies(line.step(i, 'Fetching'), And(state.lent, line.names(state.head, i),
                                              state.state == If(state.flag(i), CONSTANTS['MemState.Gone'], CONSTANTS['MemState.Fresh']))),
        Implies(line.step(i, 'WritingBack'), And(state.lent, state.head == LINK.none, line.mode('Home')))))


def readback(count):
    """Prints which definitions do not follow at this number of nodes."""
    line = Line(count)
    solver = Solver()
    for each in line.law():
        solver.add(each)
    print('the law has a state:', solver.check() == sat, flush=True)
    missing = total = 0
    for part in (chain, own_word, back_links, modes, slots, facts, lent):
        for name, says in part(line):
            solver.push()
            solver.add(Not(says))
            answer = solver.check()
            solver.pop()
            total += 1
            if str(answer) != 'unsat':
                missing += 1
                print('does not follow:', name, f'({answer})', flush=True)
    print(f'{count} nodes: {missing} of {total} definitions do not follow')
