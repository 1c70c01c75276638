"""Scripts by chance, and what the program must print of them by the rows and the table of turns."""
import random
import re
import subprocess

from states import opened
from telling import told
from turns import ENDS, GOALS, WAITS, mover, turn, waits_for

COMMANDS = {'load': 'load {} 0 0', 'write': 'add {} 0 0 1', 'evict': 'evict {} 0'}
TURN = re.compile(r'# node (\d+) line \d+ [^:]*: (\w+)[^;]*; ([^;]*); [^;]*?(?:; for node (\d+))?$')
NAMES = {'only': ENDS}      # a turn without an exchange that doesn't wait `only looked`
# more turns than a call takes alone
LONG = 1000
LAST = {'load': ('Settle', 'Unhold'), 'write': ('Written',), 'evict': ('Left', 'Rolled', 'ends')}


class Astray(Exception):
    """What a script does that it can't with the table as it is; says what."""


class Play:
    """A script as it grows, with the state that it leads to and what it prints. Word 0 is as often added to as the line's stamp says."""

    def __init__(self, nodes):
        self.state, self.stamp, self.goals, self.turns = opened(nodes), 0, {}, []
        self.script, self.printed, self.states = [f'memory {nodes} 1'], [], set()

    def begin(self, node, goal):
        """A call of a node."""
        self.goals[node] = goal
        self.script.append(COMMANDS[goal].format(node))

    def step(self, node, goal):
        """One turn towards a goal. What it came to."""
        event, after = turn(self.state, node, goal)
        if after is None:
            raise Astray(f"node {node}'s {event} misses in {told(self.state)}")
        self.state = after
        self.states.add(self.state)
        self.turns.append((node, event, waits_for(self.state, node, goal) if event == WAITS else None))
        return event

    def take(self, node):
        """One turn of the node's call, which may be its last. What it came to."""
        if node not in self.goals:
            raise Astray(f"node {node}'s call has ended before")
        event = self.step(node, self.goals[node])
        if event in LAST[self.goals[node]]:
            self.end(node, self.goals.pop(node))
        return event

    def turn(self, node):
        """The command of that name."""
        self.script.append(f'turn {node}')
        if self.take(node) == WAITS:
            self.printed.append(f'node {node} waits')

    def done(self, node):
        """The command of that name, of a call that doesn't wait."""
        before = len(self.turns)
        while node in self.goals:
            if self.take(node) == WAITS or len(self.turns) - before > LONG:
                raise Astray(f"node {node}'s call does not end in {told(self.state)}")

    def calm(self):
        """To rest, by turns of movers, as loads take them: at most n * n + 9 * n of n nodes."""
        before, nodes = len(self.turns), len(self.state.tags)
        while (node := mover(self.state)) is not None:
            self.step(node, 'load')
            if len(self.turns) - before > nodes * nodes + 9 * nodes:
                break
        if not self.state.at_rest():
            raise Astray(f'it does not come to rest, but to {told(self.state)}')

    def rest(self):
        """The command of that name."""
        self.script.append('rest')
        self.calm()

    def finish(self):
        """The command `end`: no call waits, and each ends within 3 * n + 16 turns."""
        self.script.append('end')
        self.calm()
        for node in sorted(self.goals):
            before = len(self.turns)
            self.done(node)
            if len(self.turns) - before > 3 * len(self.state.tags) + 16:
                raise Astray(f"node {node}'s call takes {len(self.turns) - before} turns from rest")

    def end(self, node, goal):
        """The answer of a call that has ended."""
        self.stamp += goal == 'write'
        self.printed.append({'load': f'node {node} read {self.stamp} stamp {self.stamp}',
                             'write': f'node {node} wrote stamp {self.stamp}', 'evict': f'node {node} out'}[goal])


def by_chance(nodes, turns, seed):
    """A script of so many commands, the last of which is `rest` or `end`; so are some on the way."""
    chance, play = random.Random(seed), Play(nodes)
    for _ in range(turns):
        node = chance.randrange(nodes)
        if chance.random() < 0.02:
            chance.choice((play.rest, play.finish))()
        if node not in play.goals:
            play.begin(node, chance.choice(GOALS))
        play.turn(node)
    chance.choice((play.rest, play.finish))()
    return play


def said(program, form, text):
    """What the program prints of a script in this form, line by line, and its status."""
    ran = subprocess.run([program, form], input=text, capture_output=True, text=True, check=False)
    return ran.stdout.splitlines(), ran.returncode


def turn_told(found):
    """The node, its exchange, WAITS or ENDS, and whom it waits for, of a turn's line in a trace."""
    return int(found[1]), NAMES.get(found[2], found[2]), found[4] and int(found[4])


def agrees_on(program, play):
    """Whether the program prints what it must of a script, and takes the same turns, those towards rest too: each of that node, with
    that exchange, or a wait for that node. Behind the last of them every step is Idle."""
    text = ''.join(f'{line}\n' for line in play.script)
    traced, status = said(program, 'trace', text)
    taken = [found for row in traced if (found := TURN.match(row))]
    steps = {found[1]: found[3] for found in taken}
    if [turn_told(found) for found in taken] != play.turns or set(steps.values()) != {'Idle'}:
        return False
    return (play.printed, 0) == said(program, 'script', text) and not status


def agrees(program, nodes=3, turns=200, scripts=100):
    """Whether the program does what it must, of so many scripts."""
    states = set()
    for seed in range(scripts):
        try:
            play = by_chance(nodes, turns, seed)
        except Astray as why:
            print(f'progress: script {seed} goes astray: {why}')
            return False
        states |= play.states
        if not agrees_on(program, play):
            print(f'progress: the program does something else of script {seed}:', *play.script, sep='\n')
            return False
    print(f'progress: the program agrees on {scripts} scripts of {turns} turns, which lead through {len(states)} states')
    return True
