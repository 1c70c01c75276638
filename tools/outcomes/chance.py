"""Scripts of races by chance, and what must be said of them."""
from lines import BLANK, Call
from races import begun, done, fresh, outcomes

GOALS = ('load', 'store', 'add', 'evict')


class Race:
    """A script as it grows: calls made to their ends one after another, and then calls that stay open, at most one a node."""

    def __init__(self, by):
        self.nodes, lines, self.capacity = by.choice((1, 2, 2, 3, 3, 3)), by.choice((1, 1, 2)), by.choice((1, 2))
        contents = [by.choice((BLANK, (by.choice((1, 7)), (3,) * 8))) for _ in range(lines)]
        self.script = [f'memory {self.nodes} {lines}', f'capacity {self.capacity}']
        self.script += [f'open {line} {stamp} {" ".join(map(str, words))}' for line, (stamp, words) in enumerate(contents) if stamp]
        self.state, self.residents = fresh(self.nodes, contents), ((),) * self.nodes
        for _ in range(by.randrange(5)):
            node = self.begin(by, by.randrange(self.nodes))
            self.state, self.residents = done(self.state, self.residents, node)
            self.script.append(f'done {node}')
        for node in range(self.nodes):
            if by.random() < 0.8:
                self.begin(by, node)

    def begin(self, by, node):
        """A call of the node, by chance; the node."""
        line, call = by.randrange(len(self.state[0])), Call(by.choice(GOALS), by.randrange(2), by.randrange(1, 10))
        words = {'load': [call.word], 'evict': []}.get(call.goal, [call.word, call.value])
        self.script.append(' '.join(map(str, [call.goal, node, line, *words])))
        self.state, self.residents = begun(self.state, self.residents, self.capacity, node, line, call)
        return node

    def text(self):
        """The script."""
        return ''.join(f'{line}\n' for line in self.script)

    def outcomes(self):
        """How many states there are, by outcome how many turns lead there at least, and from how many states no order ends all calls."""
        return outcomes(self.state)
