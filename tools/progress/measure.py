"""What is left to do on a line, and how far it is from rest, as crates/sci_core/specs/Costs.antt and crates/sci_ops/specs/Ranking.antt
have it: `differing` compares the numbers, and the steps that stir."""
import pathlib
import re

from states import part

CRATES = pathlib.Path(__file__).resolve().parents[2] / 'crates'
COSTS, RANKING = CRATES / 'sci_core/specs/Costs.antt', CRATES / 'sci_ops/specs/Ranking.antt'
STIRS = re.compile(r'(?m)^stirs \(Pending\.(\w+).* = true$')
LINE = re.compile(r'(?m)^(of_kind|of_step|cost) \(?(?:(?:Kind|Pending|Event)\.)?(\w+)(.*) = (\d+)$')

OF_KIND = {'Fresh': 3, 'Dirty': 3, 'Valid': 3}
OF_STEP = {'Idle': 0, 'Holding': 1, 'Queueing': 8, 'Fetching': 7, 'InQueue': 6, 'Copying': 5, 'Ready': 4, 'Purging': 4,
           'Advancing': 6, 'Clearing': 5, 'Leaving': 8, 'Promoted': 7, 'WritingBack': 2, 'Parted': 1, 'Unlinked': 1}
# before its flag is set, and behind it
OF_FLAG = {'Converting': (6, 5), 'Rolling': (3, 2)}
COST = {'Queue': 9, 'Hold': 2, 'Convert': 4, 'BeginPurge': 2, 'Roll': 1, 'Leave': 6, 'Requeue': 1, 'Adopt': 1, 'Look': 1}
STIRRING = ('Queueing', 'Leaving', 'Promoted', 'Converting', 'Purging', 'Advancing', 'Clearing')


def differing():
    """The numbers that the definitions have and these tables don't, or the other way round."""
    said = {}
    for name, case, rest, number in LINE.findall(COSTS.read_text(encoding='utf-8')):
        flag = re.search(r'\b(true|false)\b', rest)
        said[name, case, flag and flag[1]] = int(number)
    here = {(name, case, None): number for name, table in (('of_kind', OF_KIND), ('of_step', OF_STEP), ('cost', COST)) for case, number in table.items()}
    here |= {('of_step', case, flag): numbers[flag == 'true'] for case, numbers in OF_FLAG.items() for flag in ('false', 'true')}
    here |= {('of_kind', '_', None): 0, ('cost', '_', None): 0}
    stirring = set(STIRS.findall(RANKING.read_text(encoding='utf-8'))) ^ set(STIRRING)
    return sorted(map(str, said.items() ^ here.items())) + sorted(stirring)


def of_step(step):
    """What a pending step leaves."""
    if step.phase in OF_FLAG:
        return OF_FLAG[step.phase][bool(part(step, 'flag'))]
    return OF_STEP[step.phase]


def measure(state):
    """What is left to do."""
    return sum(OF_KIND.get(tag.kind, 0) for tag in state.tags) + sum(map(of_step, state.steps))


def stale(state):
    """Newcomers that found another head than memory names now, and entries in Roll whose back link isn't a purging node."""
    newcomers = sum(step.phase == 'Queueing' and part(step, 'kept') != state.memory.forw for step in state.steps)
    rolling = (tag for tag in state.tags if tag.kind == 'Roll')
    return newcomers + sum(tag.back is None or state.tags[tag.back[0]].kind != 'Purging' for tag in rolling)


def ranking(state):
    """What each turn of a node that isn't Idle lowers, if it doesn't wait: at most n * n + 9 * n."""
    return measure(state) + len(state.tags) * sum(step.phase in STIRRING for step in state.steps) + stale(state)
