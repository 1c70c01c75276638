"""The edits of crates as tasks for the kit's lanes, and what became of them."""

import threading

from kit import RT
from turns import TURNS

PRINTING = threading.Lock()


def say(text):
    with PRINTING:
        print(f"refused: {text}", flush=True)


def begin(trial, waits, given, jobs):
    """Proves what a crate's edits change, once what it waits for is there."""
    if all(given[it] for it in waits):
        trial.begin(jobs)
    else:
        say(f"{trial.crate.name} NOT PROVED: a library failed")


def tasks_of_edits(trial, waits, size):
    """Returns the tasks for a crate's edits: a first one, the batches side by side over what it kept, and a last look. Where the kit
    asks for lines of work, the edits of a batch are counted: so the longest batches begin first, and the last to end is a short one."""
    if not trial.edits:
        return {}
    needs, name = RT.need(trial.crate), trial.crate.name
    tasks = {(name, "first"): (waits, 1, needs, lambda given, jobs: begin(trial, waits, given, jobs))}
    batches = trial.batches(size)
    for batch, label in batches:
        tasks[name, label] = [(name, "first")], len(batch), needs, lambda given, jobs, it=(batch, label): trial.try_these(*it)
    tasks[name, "last"] = [(name, "first"), *((name, label) for _, label in batches)], 1, needs, lambda given, jobs: trial.end()
    return tasks


def report(trials, tried):
    """Prints what became of each edit and of each crate, and returns how many failed; that there is none counts as one. Where none
    failed, the next run tries the edits of the next turn."""
    passed, failed, trials = 0, 0, [it for it in trials if it.count]
    if not trials:
        say("there is no edit to try")
        failed = 1
    for trial in trials:
        for edit in trial.edits:
            label = f"{trial.crate.name}/{edit.name}"
            if edit in trial.refused:
                say(f"{label}: refused, as it must be: {trial.refused[edit]}")
            else:
                say(f"{label}: FAILED: {trial.failed.get(edit, 'it was not tried')}")
        passed += len(trial.refused)
        failed += len(trial.edits) - len(trial.refused)
    for trial in trials:
        turn = f" (turn {trial.turn} of {TURNS})" if trial.turn else ""
        told = f"{len(trial.refused)} refused, of them {len(trial.searched)} by search alone, over {trial.over}"
        say(f"{trial.crate.name}: {len(trial.edits)} of {trial.count} tried{turn}, {told}")
        for edit in (it for it in trial.edits if it in trial.searched):
            say(f"{trial.crate.name}/{edit.name}: by search alone, which did not prove {trial.searched[edit]}")
    count, used = sum(len(it.edits) for it in trials), sum(it.used for it in trials)
    say(f"{count} edits tried in {used:.0f} CPU s, {sum(it.count for it in trials) - count} left to later runs")
    print(f"{passed} passed, {failed} failed", flush=True)
    if not failed:
        tried.go_on(trials)
    return failed
