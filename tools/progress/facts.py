"""What must hold of each state and of each exchange, and where it doesn't."""
import enum

from measure import COST, measure, ranking
from states import IDLE
from turns import GOALS, WAITS, keeps_waiting, turn, waits_for


class Fact(enum.Enum):
    """What is looked for, in words."""
    GOES_ON = "where a step isn't Idle, some node that isn't Idle makes an exchange in its next turn"
    MEETS = 'no turn that is taken in one go misses'
    NAMED = 'a node waits exactly where waits_for names another'
    UNDER_WAY = "whom a node waits for isn't Idle"
    NO_CIRCLE = 'waiting leads in no circle'
    ALONE = 'an Idle node that waits is kept waiting by just one node'
    PAID = 'each exchange is paid'
    NEARER = "each turn of a node that isn't Idle lowers ranking, unless it waits"
    NEAR = 'ranking is at most n * n + 9 * n'


def goes_on(state, me):
    """Whether the node's next turn makes an exchange."""
    event, after = turn(state, me, 'load')
    return event != WAITS and after is not None


def faults_of_rest(state):
    """Nobody goes on, or rest is too far."""
    nodes = len(state.tags)
    under_way = [me for me, step in enumerate(state.steps) if step != IDLE]
    if under_way and not any(goes_on(state, me) for me in under_way):
        yield Fact.GOES_ON, 'nobody does'
    if ranking(state) > nodes ** 2 + 9 * nodes:
        yield Fact.NEAR, f'it is {ranking(state)}'


def faults_of_events(state, me, event, after):
    """An exchange that takes less than 1 from what is left to do, but for what its event costs."""
    if 1 + measure(after) > measure(state) + COST.get(event, 0):
        yield Fact.PAID, f"node {me}'s {event} leads from {measure(state)} to {measure(after)}, and its price is {COST.get(event, 0)}"


def faults_of_turns(state, me):
    """A turn that misses, or waits where it shouldn't, or doesn't lead nearer to rest."""
    whom = waits_for(state, me)
    for goal in GOALS:
        event, after = turn(state, me, goal)
        told, named = f"node {me}'s turn of a call to {goal}", 'nobody' if whom is None else f'node {whom}'
        if after is None:
            yield Fact.MEETS, f'{told} asks for {event}, which misses'
        elif (event == WAITS) != (whom is not None):
            yield Fact.NAMED, f'{told} {"waits" if event == WAITS else f"makes its {event}"}, and waits_for names {named}'
        elif event != WAITS and ranking(after) >= ranking(state):
            yield Fact.NEARER, f'{told} makes its {event}, and leads from {ranking(state)} to {ranking(after)}'


def faults_of_waiting(state, me, whom):
    """Whom a node waits for is Idle, or waits for itself by way of others."""
    way = [me]
    while whom is not None:
        way.append(whom)
        if state.steps[whom] == IDLE:
            yield Fact.UNDER_WAY, f'node {way[-2]} waits for node {whom}, which is Idle'
        whom = waits_for(state, whom)
        if len(way) > len(state.tags):
            yield Fact.NO_CIRCLE, f"node {' waits for node '.join(map(str, way))}"
            return


def faults_of_idle(state, me):
    """The first turn of an operation misses, or it waits for nobody, or for one of several, or for an Idle one."""
    for goal in GOALS:
        event, after = turn(state, me, goal)
        if after is None:
            yield Fact.MEETS, f"node {me}'s first turn of a call to {goal} asks for {event}, which misses"
        elif event == WAITS and len(keeps_waiting(state, me)) != 1:
            by = ' and '.join(f'node {node}' for node in keeps_waiting(state, me))
            yield Fact.ALONE, f"node {me}'s call to {goal} waits for {by or 'nobody'}"
        elif event == WAITS:
            yield from faults_of_waiting(state, me, waits_for(state, me, goal))


def faults(state, nexts):
    """All that is wrong of a state, and of what its nodes can do: a fact, and where it fails."""
    yield from faults_of_rest(state)
    for me, event, after in nexts:
        yield from faults_of_events(state, me, event, after)
    for me, step in enumerate(state.steps):
        if step != IDLE:
            yield from faults_of_turns(state, me)
            yield from faults_of_waiting(state, me, waits_for(state, me))
        else:
            yield from faults_of_idle(state, me)
