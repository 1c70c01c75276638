"""The CPU seconds of the programs that a task waits for, in its own thread or in those that it starts."""

import os
import threading
from concurrent.futures import ThreadPoolExecutor

from kit import RT

# the seconds of each program that the thread's task has waited for
OF_THREAD = threading.local()
# how a task of `rt ci` is told, whose key begins with its crate and its kind; all others are those of the edits of must-fail/
KINDS = {"proof": "proof", "tests": "tests"}
OTHERS = "must-fail"


def waitpid(pid, options):
    """Does what os.waitpid does, and notes what the program has used that it waited for."""
    ended, status, used = os.wait4(pid, options)
    if ended:
        record().append(used.ru_utime + used.ru_stime)
    return ended, status


def record():
    """Returns the list in which this thread notes seconds."""
    return OF_THREAD.__dict__.setdefault("record", [])


class Pool(ThreadPoolExecutor):
    """Threads that note seconds where the one does that gives them work."""

    def submit(self, call, *given):
        owner = record()

        def noting():
            OF_THREAD.record = owner
            return call(*given)

        return super().submit(noting)


def noted(key, call, table):
    """Returns a task's call that notes the seconds of its programs in a table, by the task's key."""

    def counted(given, jobs):
        table[key] = OF_THREAD.record = []
        return call(given, jobs)

    return counted


def rows(table, trials):
    """Returns a line for each crate: the CPU seconds of its proof, its tests, and its wrong edits."""
    parts = {}
    for (name, kind, *_), seconds in table.items():
        of_crate = parts.setdefault(name, dict.fromkeys([*KINDS.values(), OTHERS], 0))
        of_crate[KINDS.get(kind, OTHERS)] += sum(seconds)
    for it in trials:
        parts.setdefault(it.crate.name, {})["edits"] = it.used
    for name, of_crate in parts.items():
        told = [f"{said} {it:.0f}" for said, it in of_crate.items() if it >= 0.5]
        yield f"CPU s of {name}: {', '.join(told) or 'none'}\n"


# (the library subprocess, and the kit's own, call them by these names)
os.waitpid = waitpid
RT.rtlib.ThreadPoolExecutor = Pool
