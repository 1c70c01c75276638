"""The scripts of examples/ with a call that never ends: their turns lead back to the same state. Bytes and stamps are left out."""
import pathlib

from scripts import Astray, Play
from turns import WAITS

EXAMPLES = pathlib.Path(__file__).resolve().parents[2] / 'examples'
GOAL_OF = {'load': 'load', 'store': 'write', 'add': 'write', 'evict': 'evict'}
# script; the states behind which of its `list`s are the same; how many turns lead from each of these to the next; whether any waits
CIRCLES = (
    ('two_writers_in_a_circle', (0, 3, 4), 16, False),
    ('two_fresh_writers_in_a_circle', (0, 1, 2), 16, False),
    ('five_writers_in_turn', (0, 1, 2), 55, True),
    ('a_load_that_never_ends', (0, 1, 2), 9, False),
)


def listed(name):
    """Of each `list` of a script: the state, the open calls, and the turns up to it."""
    rows = [row.split() for row in (EXAMPLES / f'{name}.txt').read_text(encoding='utf-8').splitlines() if row[:1] not in ('#', '')]
    play, lists = Play(int(rows[0][1])), []
    for command, *words in rows[1:]:
        node = int(words[0])
        if command in GOAL_OF:
            play.begin(node, GOAL_OF[command])
        elif command == 'turn':
            play.turn(node)
        elif command == 'done':
            play.done(node)
        else:
            lists.append((play.state, dict(play.goals), list(play.turns)))
    return lists


def leads_back(name, same, turns, waits):
    """Whether a script's turns lead round as they should: the same state and open calls, behind so many turns, each with an exchange
    unless some wait."""
    lists = [it for number, it in enumerate(listed(name)) if number in same]
    rounds = [after[2][len(before[2]):] for before, after in zip(lists, lists[1:])]
    is_same = len(lists) == len(same) and all(it[:2] == lists[0][:2] for it in lists)
    return is_same and all(len(it) == turns and waits == any(event == WAITS for _, event, _ in it) for it in rounds)


def why_not(circle):
    """Why a script's turns don't lead round as they should, or None."""
    try:
        return None if leads_back(*circle) else 'to no state that it left'
    except Astray as why:
        return f'elsewhere: {why}'


def all_lead_back():
    """Whether all do; prints which don't."""
    faults = [(circle[0], why) for circle in CIRCLES if (why := why_not(circle))]
    for name, why in faults:
        print(f'progress: examples/{name}.txt leads {why}')
    print(f'progress: {len(CIRCLES) - len(faults)} scripts lead back to the same state, with the same calls open')
    return not faults
