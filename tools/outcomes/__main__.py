"""outcomes: makes scripts of races by chance, and compares what the built program says of each with a search over the rows of tools/law
and the table of turns of tools/progress.

    python3 tools/outcomes [PROGRAM [SEED [COUNT]]]

PROGRAM is crates/sci_sim/out/sci_sim. Of each of COUNT scripts, 200, the program must print as many states, and the same outcomes, in
the order of how many turns lead there, with as many turns as are needed; behind the script these turns must lead it to just that
outcome; and one state less must be too few. From each state some order must end all calls, as PROGRESS says. The last line is
`N passed, M failed`.
"""
import os
import pathlib
import random
import subprocess
import sys

ROOT = pathlib.Path(__file__).resolve().parents[2]
sys.path.insert(0, str(ROOT / 'tools/outcomes'))
sys.dont_write_bytecode = True

from chance import Race  # noqa: E402

GIVEN = sys.argv[1:]
PROGRAM = os.path.realpath(GIVEN[0] if GIVEN else ROOT / 'crates/sci_sim/out/sci_sim')
COUNT = int(GIVEN[2]) if GIVEN[2:] else 200
REFUSED = (1, '', 'scisim: too many states\n')


def ran(*words, text):
    """The program's status, and what it says."""
    it = subprocess.run([PROGRAM, *words], input=text, capture_output=True, text=True, check=False)
    return it.returncode, it.stdout, it.stderr


def read(said):
    """What is counted in front of the outcomes, and each outcome: its text, and its turns."""
    head, *entries = said.split('\n\n')
    listed = []
    for entry in entries:
        rows = entry.strip('\n').split('\n')
        turns = [row for row in rows if row.startswith('turn ')]
        listed.append((tuple(rows[:len(rows) - len(turns)]), turns))
    return head.split('\n') if entries else head.strip('\n').split('\n'), listed


def leads(race, outcome, turns):
    """Whether these turns lead the script to the outcome."""
    lines = len(race.state[0])
    text = race.text() + ''.join(f'{row}\n' for row in [*turns, *(f'list {line}' for line in range(lines))])
    status, said, faults = ran('script', text=text)
    before = ran('script', text=race.text())[1]
    rows = [row for row in said.removeprefix(before).splitlines() if not row.endswith(' waits')]
    ends, lists = rows[:len(rows) - lines], rows[len(rows) - lines:]
    return (status, faults) == (0, '') and (*sorted(ends), *lists) == outcome


def agrees(race):
    """Whether the program says of the race what the search found, and each state can come to an end."""
    states, least, endless = race.outcomes()
    status, said, faults = ran('outcomes', text=race.text())
    head, listed = read(said)
    return (endless == 0 and (status, faults) == (0, '') and head == [f'states {states}', f'outcomes {len(least)}']
            and [len(turns) for _, turns in listed] == sorted(least.values())
            and {outcome: len(turns) for outcome, turns in listed} == least
            and all(leads(race, outcome, turns) for outcome, turns in listed)
            and ran('outcomes', '--most', str(states), text=race.text())[1] == said
            and ran('outcomes', '--most', str(states - 1), text=race.text()) == REFUSED)


def main():
    by = random.Random(int(GIVEN[1]) if GIVEN[1:] else 51)
    seen = []
    for _ in range(COUNT):
        race = Race(by)
        seen.append(agrees(race))
        if not seen[-1] and seen.count(False) < 4:
            print(f'outcomes: the program says something else of\n{race.text()}', file=sys.stderr)
    print(f'{sum(seen)} passed, {len(seen) - sum(seen)} failed')
    return not all(seen)


if __name__ == '__main__':
    sys.exit(main())
