"""Writes and checks the proof that each row keeps the law. See README.md.

    python3 tools/law              write every proof file, check the crate, list what is open
    python3 tools/law hints        let the solver find instances for what is open, write and check again
    python3 tools/law compact      find again what follows without instances, from nothing
    python3 tools/law possible     ask the solver whether each row's premises can be met
    python3 tools/law readback 4   ask the solver whether the definitions follow from the law, at 4 nodes
    python3 tools/law ask ROW [CLAUSE]   ask the solver whether the row keeps the law, or the clause, and show what breaks it
    python3 tools/law states [--check]   write docs/EVENTS.md and the rows of docs/PROTOCOL.md; or check that they are so
    python3 tools/law try CHANGE [NODES]   search a changed table for the shortest run from HOME to a state that breaks the headline
    python3 tools/law try --check   do the wrong tables of wrong/ lead to what they say?
"""
import os
import re
import subprocess
import sys
from collections import defaultdict

import writer
from clauses import CRATE, GROUPS
from rows import ROWS

CHECK = os.environ.get('CHECK', 'rt check --jobs 2')
COMMANDS = ['write', 'hints', 'compact', 'possible', 'readback', 'ask', 'states', 'try']


def place(lines, number):
    """The row and the clause, or group, that a line of a proof file is of."""
    row = group = clause = None
    for line in lines[:number]:
        if found := re.match(r'(\w+)_keeps_(law|links) ', line):
            row = found[1] if found[2] == 'law' else f'{found[1]} links'
            group = clause = None
        if found := re.match(r'      (\w+) = ', line):
            group = found[1]
        if found := re.match(r'        (\w+) = ', line):
            clause = found[1]
    last = lines[number - 1]
    if last.startswith(' ' * 8) and clause:
        return row, f'{group}.{clause}'
    return row, group if re.match(r'      (\w+) = ', last) else f'line {number}'


def check():
    """Checks the crate; what is open: row -> clause or group -> message."""
    done = subprocess.run(CHECK.split(), cwd=CRATE, capture_output=True, text=True, check=False)
    opened, log = defaultdict(dict), done.stdout + done.stderr
    for event, line, message in re.findall(r'^\./proofs/Keeping/(\w+)\.antt:(\d+):\d+: error: (.*)$', log, re.M):
        with open(os.path.join(writer.FOLDER, f'{event}.antt'), encoding='utf-8') as file:
            row, where = place(file.read().split('\n'), int(line))
        opened[row][where] = message
    others = [line for line in log.split('\n') if ' error: ' in line and 'proofs/Keeping/' not in line]
    print('open:', sum(map(len, opened.values())), *others, sep='\n', flush=True)
    return opened


def show(opened):
    """Prints what is open."""
    for row, places in opened.items():
        for where, message in places.items():
            print(f'{row}: {where}: {message[:160]}')


def write(hints):
    """Writes the files, checks them, and keeps the hints."""
    writer.write_all(hints)
    writer.save_hints(hints)
    return check()


def add_instances(hints, opened):
    """Asks the solver for the open clauses. What stood alone and fails now is asked for clause by clause."""
    import solver
    for row, places in opened.items():
        if row in ROWS:
            for where in set(places) & set(hints[row]['alone']):
                hints[row]['alone'].remove(where)
            keys = [where for where in places if '.' in where]
            found = solver.instances(ROWS[row], keys)
            hints[row]['needs'].update({key: items for key, items in found.items() if items is not None})


def settle(hints):
    """Checks, and takes what fails out of `alone`, until nothing of it fails."""
    while True:
        writer.write_all(hints)
        opened = check()
        wrong = [(row, where) for row, places in opened.items() for where in places if where in hints[row]['alone']]
        for row, where in wrong:
            hints[row]['alone'].remove(where)
        if not wrong:
            return opened


def compact(hints):
    """Finds the groups that follow from what they were before by one call, and then such clauses."""
    for row, known in hints.items():
        known['alone'] = [group for group in GROUPS if group not in ROWS[row].special]
    settle(hints)
    for row, known in hints.items():
        known['alone'] += [clause.key for group, clauses in GROUPS.items() for clause in clauses
                           if group not in known['alone'] and group not in ROWS[row].special]
    opened = settle(hints)
    writer.save_hints(hints)
    return opened


def main():
    command, *more = sys.argv[1:] or ['write']
    if command not in COMMANDS:
        raise SystemExit('one of the words ' + ', '.join(COMMANDS) + ', or none to write every file; README.md has what each does')
    if command == 'readback':
        import readback
        readback.readback(int(more[0]) if more else 4)
        return
    if command == 'ask':
        import ask
        if not more:
            raise SystemExit('which row? python3 tools/law ask ROW [CLAUSE]')
        sys.exit(0 if ask.ask(more[0], more[1:]) else 1)
    if command == 'states':
        import states
        sys.exit(0 if states.states(more) else 1)
    if command == 'try':
        import trial
        if not more:
            raise SystemExit('which change? python3 tools/law try CHANGE')
        sys.exit(0 if trial.trial(more) else 1)
    if command == 'possible':
        import solver
        print('rows that can never be taken:', [row.name for row in ROWS.values() if not solver.possible(row)])
        return
    hints = writer.load_hints()
    opened = compact(hints) if command == 'compact' else write(hints)
    rounds = 2 if command == 'hints' else 0
    while opened and rounds:
        rounds -= 1
        add_instances(hints, opened)
        opened = write(hints)
    show(opened)


if __name__ == '__main__':
    main()
