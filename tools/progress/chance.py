"""How many turns writers take that are drawn by chance, evenly, among those who haven't ended. One node more has the FRESH copy of the line."""
import functools
import random

from scripts import LAST
from states import opened
from turns import turn

# how many writers, in how many runs, and how many turns a run took in the mean, as docs/PROGRESS.md says
MEANS = ((2, 1000, 38), (4, 100, 174), (6, 40, 615))
SEED = 1


@functools.lru_cache(maxsize=None)
def taken(state, node, goal):
    """A turn, which states that come again don't pay for again."""
    return turn(state, node, goal)


def start(writers):
    """The node behind the writers has loaded."""
    state, event = opened(writers + 1), None
    while event not in LAST['load']:
        event, state = turn(state, writers, 'load')
    return state


def turns_of(writers, chance):
    """How many turns such a run takes."""
    state, left, turns = start(writers), list(range(writers)), 0
    while left:
        node = chance.choice(left)
        event, state = taken(state, node, 'write')
        turns += 1
        if event in LAST['write']:
            left.remove(node)
    return turns


def are_means():
    """Whether the means are as told; prints them."""
    found = [(writers, runs, round(mean(writers, runs))) for writers, runs, _ in MEANS]
    for writers, runs, turns in found:
        print(f'progress: {writers} writers by chance: {turns} turns in the mean of {runs} runs')
    return tuple(found) == MEANS


def mean(writers, runs):
    """How many turns so many runs took in the mean."""
    chance = random.Random(SEED)
    taken.cache_clear()
    return sum(turns_of(writers, chance) for _ in range(runs)) / runs
