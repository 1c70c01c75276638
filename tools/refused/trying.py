"""Tries a crate's edits over one folder of kept work."""

import os
import re
import shutil
import signal
import subprocess
import tempfile

from edits import in_batches, name_of_copy, put, with_numbers
from functions import modules_of, named, names_of
from kit import RATTLE, RT, linked, sum_of

LINE = re.compile(r"^fn (\S+): (.*)$", re.M)
# the last line of a check of some functions: how many were asked for, and how many of them are proved
ASKED = re.compile(r"^only=(\d+) proved=(\d+)$", re.M)
# a line that comes as the prover ends with a function
CHECKED = re.compile(r"^checked (\S+), \d+ of \d+$")
# what the prover says of a function whose own goals it could not show
GOALS = re.compile(r"`search` did not prove (`[^`]+`(?:, `[^`]+`)*)")
# an answer's own error; that others rest on a refused one, or that a file can't be read, is none
ANSWER = re.compile(r": error: (`[^`]+`): ")
# one of an answer that is a search, or holds one: it found no proof
SEARCH = re.compile(r": error: `[^`]+`: `(?:search|grind)`: ")
# a proof file that names what the edit took away says nothing of the contract
NAMES = re.compile(r"has no field|\(nearest: |is not in scope|has no `|was not admitted")
# what stands in such an error where the prover's kernel has checked values at which the goal fails
VALUES = "The hypotheses hold, and the goal fails at"

# what the prover offers where a failing goal has no answer, for which it runs once more
OFFER = re.compile(r"^help: (?:write|add these lines to) \./proofs/(\S+?)(?:_edit_\d+)?/Answers\.antt", re.M)

# from how many CPU seconds on a function is named under an edit: its answers are worth a look
DEAR = 10


def cpu_of(pid):
    """Returns the CPU seconds that a process has taken, or 0 where it has ended."""
    try:
        with open(f"/proc/{pid}/stat", encoding="utf-8") as it:
            fields = it.read().rsplit(")", 1)[1].split()
    except OSError:
        return 0
    return (int(fields[11]) + int(fields[12])) / os.sysconf("SC_CLK_TCK")


def run(words, folder, costs=None):
    """Runs rattle and returns its status, what it said and the CPU seconds that it took; costs gets those of each function that it
    says to have checked, but for the first, which has the start of the check too."""
    spent, lines = 0, []
    how = {"cwd": folder, "stdin": subprocess.DEVNULL, "stdout": subprocess.PIPE, "stderr": subprocess.STDOUT}
    started = subprocess.Popen([*RT.rtlib.guarded(), RATTLE, *words], **how)
    with started.stdout as said:
        for line in said:
            lines.append(line.decode(errors="replace"))
            checked = CHECKED.match(lines[-1])
            if checked and costs is not None:
                now = cpu_of(started.pid)
                if spent:
                    costs[checked[1]] = now - spent
                spent = now
    _, status, used = os.wait4(started.pid, 0)
    started.returncode = os.waitstatus_to_exitcode(status)
    if started.returncode == -signal.SIGKILL and "--jobs" in words and words[words.index("--jobs") + 1] != "1":
        at = words.index("--jobs") + 1
        return run([*words[:at], "1", *words[at + 1 :]], folder, costs)
    return started.returncode, "".join(lines), used.ru_utime + used.ru_stime


def only(paths):
    """Returns the words that have the prover check these functions, and those that they call."""
    return [word for path in sorted({*paths}) for word in ("--only", path)]


def told_as(edit, number):
    """Returns what the prover calls the function, or the copy of it, that an edit of this number changes."""
    return name_of_copy(edit.function, number) if number else edit.function


def errors_of(function, said):
    """Returns what the prover says to be wrong in the files of a function's proof, each error with the lines that go on with it."""
    place = re.escape(place_of(function))
    return re.findall(rf"(?m)^(?:\./)?proofs/{place}/\w+\.antt:\d+:\d+: error.*(?:\n  .*)*", said)


def place_of(function):
    """Returns where the files of a function's proof stand."""
    return "/".join(function.split("::")[1:])


def first_line(text):
    return text.split("\n", 1)[0]


def by_search(function, goals, own, said):
    """Returns the goals that failed, where nothing but a search says so: no other answer failed, and no values are told at which a goal
    fails. Else None."""
    told = re.search(rf"(?m)^note: `[^`]+` of (?:\./)?proofs/{re.escape(place_of(function))}/Answers\.antt may be false: ", said)
    if told or any(VALUES in it or not SEARCH.search(it) for it in own):
        return None
    return ", ".join([*([goals[1]] if goals else []), *(ANSWER.search(it)[1] for it in own)])


def names_kept(folder, crate):
    """Returns what the prover calls the functions of a crate whose proofs a folder of kept work has: each has a file of this name."""
    start, end = f"Rattle-{crate}-proofs.TheLinks.", ".oantt"
    files = [file for _, _, files in os.walk(folder) for file in files if file.startswith(start)]
    return {file[len(start) : -len(end)].replace("-", "::") for file in files}


class Trial:
    """A crate, its folder of kept work, and what became of its edits."""

    def __init__(self, crate, edits, types, kept, say):
        self.crate, self.edits, self.types, self.kept, self.say = crate, edits, types, kept, say
        self.refused, self.failed, self.is_begun = {}, {}, False
        # of those refused by search alone, the goals that the search did not prove
        self.searched = {}
        # by file, the functions of which copies are tried in a batch
        self.copied = {}
        # whether the crate is proved as it stands, in this run and into the folder of kept work
        self.is_proved = False
        # the sum of that folder as the edits began with it, and the CPU seconds of all checks
        self.sum, self.used = None, 0
        # the sum of the sources, how many edits the crate has, and the turn, where only those of a turn are tried
        self.over, self.count, self.turn = "", len(edits), None

    def asked(self, by):
        """Returns the names, by functions or by their modules, of a copy of each function that is copied, and of what the edits change,
        where it isn't proved."""
        copies = [it._replace(name=name_of_copy(it.name, 0)) for those in self.copied.values() for it in those]
        of_edits = [] if self.is_proved else [it.change for it in self.edits if it.change]
        return {path for it in [*of_edits, *copies] for path in by(it, self.types, self.crate.name)}

    def keep_of(self, those):
        """Keeps the edits of these functions, as the prover calls them, and of these source files."""
        of_function = lambda it: it.change and named(it.change, self.types, self.crate.name, those)
        self.edits = [it for it in self.edits if it.why or it.file in those or of_function(it)]

    def name_edits(self, known):
        """Finds which of the prover's functions each edit changes; returns whether that is told of all."""
        for it in self.edits:
            it.function = it.change and named(it.change, self.types, self.crate.name, known)
        return all(it.function for it in self.edits if it.change)

    def words(self, jobs, kept=None):
        return [*self.crate.words(["--jobs", str(jobs)], keeps=False), "--incremental", kept or self.kept]

    def build(self, jobs):
        """Builds the crate's library for the crates above it."""
        os.makedirs(self.kept, exist_ok=True)
        os.makedirs(os.path.dirname(self.crate.rlib), exist_ok=True)
        status, said, used = run(["build", *self.words(jobs), "-o", self.crate.rlib], self.crate.folder)
        self.used += used
        self.is_proved = not status and "\nlogic=proved " in said
        return self.is_proved, said, used

    def prove(self, jobs, by=names_of):
        """Proves what is asked for as it stands, and what that calls, into the folder of kept work; returns whether all is proved."""
        os.makedirs(self.kept, exist_ok=True)
        with tempfile.TemporaryDirectory(prefix="refused-") as room:
            self.copy_to(room)
            for file, changes in self.copied.items():
                put(room, file, [(it, name_of_copy(it.name, 0), None) for it in changes], self.types, self.crate.name)
            status, said, used = run(["check", *self.words(jobs), *only(self.asked(by))], room)
        self.used += used
        if status == 2 and "has no function" in said and by == names_of:
            return self.prove(jobs, modules_of)
        if not self.is_proved:
            self.name_edits({name for name, _ in LINE.findall(said)})
        told = ASKED.search(said)
        return not status and bool(told) and told[1] == told[2], said, used

    def copy_to(self, room):
        """Copies what a check reads of the crate."""
        for part in RT.rtlib.PARTS:
            if os.path.isdir(f"{self.crate.folder}/{part}"):
                shutil.copytree(f"{self.crate.folder}/{part}", f"{room}/{part}")

    def edit(self, room, edits):
        """Makes these edits in a copy of the crate: the first of a function in the function itself, others in copies of it. Returns the
        files that are changed, and why an edit can't be made, or None."""
        changes = {}
        for edit, number in with_numbers(edits):
            if not edit.item:
                return {*changes}, "where its function begins and ends isn't told"
            name = name_of_copy(edit.change.name, number) if number else edit.change.name
            changes.setdefault(edit.file, []).append((edit.change, name, edit.item))
        for file, of_file in changes.items():
            put(room, file, of_file, self.types, self.crate.name)
        return {*changes}, None

    def check(self, edits, costs):
        """Checks a copy of the crate with these edits, over a copy of the folder of kept work: so none is tried over what another left.
        Returns what the prover said, or why they can't stand together; costs gets the CPU seconds by function."""
        with tempfile.TemporaryDirectory(prefix="refused-") as room, tempfile.TemporaryDirectory(prefix="refused-") as kept:
            self.copy_to(room)
            changed, why = self.edit(room, edits)
            if why:
                return None, changed, why, 0
            linked(self.kept, f"{kept}/{self.crate.name}")
            asked = only(told_as(*it) for it in with_numbers(edits))
            words = ["check", *self.words(1, f"{kept}/{self.crate.name}"), "--progress", *asked]
            status, said, used = run(words, room, costs)
        self.used += used
        return status, changed, said, used

    def reaches_the_prover(self, status, changed, said):
        """Returns why the check says nothing of any contract, or None."""
        lines = said.rstrip("\n").split("\n")
        unread = next((it for it in lines if RT.unread(it, changed)), "")
        if unread:
            return f"the prover can't read the edited text: {unread[:200]}"
        if RT.rtlib.STALE.search(said):
            return "the kept work of a library could not be used"
        if status in (0, 1) and ASKED.match(lines[-1]):
            return None
        return "it doesn't reach the prover: " + " | ".join(it for it in lines[:3])[:300]

    def judge(self, function, said):
        """Returns whether a goal of the edit's own function failed, what to say, and the goals where it is refused by search alone."""
        lines = dict(LINE.findall(said))
        line = lines.get(function)
        if line is None:
            return False, f"the prover says nothing of {function}", None
        errors = errors_of(function, said)
        # (a function that waits is `proved, may wait`)
        if line.startswith("proved"):
            others = [name for name, it in lines.items() if not it.startswith("proved")]
            told = f", though {others[0]} isn't" if others else ""
            return False, f"NOT REFUSED: {function} is still proved with this edit{told}", None
        goals = GOALS.search(line)
        own = [it for it in errors if ANSWER.search(it) and not NAMES.search(first_line(it))]
        told = f"{function} did not prove {goals[1][:160]}" if goals else f"{function}: {first_line(own[0])[:200]}" if own else ""
        if told:
            return True, told, by_search(function, goals, own, said)
        if errors:
            return False, f"{function}: only a proof file that names what the edit took away fails: change a value and keep the names", None
        return False, f"no goal of {function} failed: {line[:200]}", None

    def begin(self, jobs):
        """Proves into the folder of kept work, as it stands, what the edits change, where the crate isn't proved so, and a copy of what is
        copied."""
        self.is_proved = self.is_proved and self.name_edits(names_kept(self.kept, self.crate.name))
        count, over = sum(len(it) for it in self.copied.values()), "over what was proved of it, " * self.is_proved
        self.is_begun, said, used = self.prove(jobs) if count or not self.is_proved else (True, "", 0)
        what = f"{'' if self.is_proved else 'what its edits change, and '}{count} copies"
        self.say(f"{self.crate.name}: {over}{'proved' if self.is_begun else 'NOT PROVED'}: {what} ({used:.0f} CPU s)")
        if not self.is_begun:
            self.say(said[-3000:])
        for it in self.edits:
            if it.change and not it.function:
                it.why = f"which of the prover's functions is {it.change.name}, which it changes, isn't told"
        self.sum = sum_of(self.kept)

    def end(self):
        """Looks whether the folder of kept work is still what the edits began with: where it isn't, none of them is confirmed."""
        is_same = self.is_begun and sum_of(self.kept) == self.sum
        if not is_same:
            why = "what it was tried over isn't what was proved" if self.is_begun else "its function isn't proved as it stands"
            self.failed = {it: why for it in self.edits}
            self.refused, self.searched = {}, {}
        for it in self.edits:
            if it.why:
                self.failed[it] = f"BAD EDIT: {it.why}"
        if self.is_begun:
            self.say(f"{self.crate.name}: what its edits were tried over is {'as it was proved' if is_same else 'NOT as it was proved'}")

    def batches(self, size):
        """Returns the edits in batches, each with a label."""
        batches = in_batches([it for it in self.edits if not it.why], size)
        for edit, number in [it for batch in batches for it in with_numbers(batch)]:
            if number:
                self.copied.setdefault(edit.file, set()).add(edit.change)
        return [(batch, f"batch {at + 1} of {len(batches)}") for at, batch in enumerate(batches)]

    def try_these(self, batch, label):
        """Tries the edits of a batch, and alone each that the batch doesn't confirm."""
        batch = [it for it in batch if not it.why]
        if self.is_begun and batch:
            self.try_batch(batch, label)

    def try_batch(self, batch, label):
        """Tries these edits in one check; in halves, where they don't compile together."""
        costs = {}
        status, changed, said, used = self.check(batch, costs)
        why = said if status is None else self.reaches_the_prover(status, changed, said)
        alone = len(batch) == 1
        if why and not alone:
            self.say(f"{self.crate.name}: {label}: {len(batch)} edits don't go together, so in halves ({used:.0f} CPU s)")
            for half in (batch[: len(batch) // 2], batch[len(batch) // 2 :]):
                self.try_batch(half, label)
            return
        again = []
        for edit, number in with_numbers(batch):
            is_refused, told, goals = (False, f"BAD EDIT: {why}", None) if why else self.judge(told_as(edit, number), said)
            if is_refused:
                self.refused[edit] = told
                if goals:
                    self.searched[edit] = goals
            elif alone:
                self.failed[edit] = told
            else:
                again.append(edit)
        told = [it.name for it in batch if it in self.refused]
        self.say(f"{self.crate.name}: {label}: {len(told)} of {len(batch)} edits refused ({used:.0f} CPU s): {' '.join(told)}")
        dear = [f"{name} {cost:.0f}" for name, cost in costs.items() if cost >= DEAR]
        if dear:
            self.say(f"{self.crate.name}: {label}: dear, by CPU s: {', '.join(dear)}")
        if not why and OFFER.search(said):
            self.say(f"{self.crate.name}: {label}: goals without an answer: {' '.join(sorted({*OFFER.findall(said)}))}")
        # an edit isn't judged where a function that its own calls fails by another: what is left goes together once more
        if 1 < len(again) < len(batch):
            self.try_batch(again, f"{label}, what is left")
            return
        for edit in again:
            self.try_batch([edit], f"{label}: {edit.name} alone")
