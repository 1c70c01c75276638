"""Tests tools/refused on a small crate: edits that are refused, by search alone too, and each way in which an edit fails, beside
`rt ci` and without it; which edits a run tries; that the edits of must-fail/ begin over what `rt ci` proved of the crate; that no edit
counts where the folder that they were tried over has changed behind them, and that a check changes its copy alone; which libraries are
taken as they were built; and which proofs get more jobs."""

import contextlib
import importlib.util
import io
import os
import pathlib
import re
import subprocess
import sys
import tempfile
import time
import types

TOOL = pathlib.Path(__file__).resolve().parent
sys.path.insert(0, str(TOOL))
sys.dont_write_bytecode = True

import gate
import turns
from edits import Edit, read_edits
from kit import RATTLE, RT, linked
from tasks import report
from trying import Trial

CODE = """//! Halves and their sums.
#![tactic(auto)]

ghost use Rattle.std.specs.Prelude.{◌≡◌, ◌+◌, ◌%◌, ◌≤◌, ◌<◌};

/// One more.
pub fn next(number: u32) -> u32
    requires { number < 1000 }
    ensures { result ≡ number + 1 }
{
    number + 1
}

/// Two more.
pub fn second(number: u32) -> u32
    requires { number < 900 }
    ensures { result ≡ number + 2 }
{
    next(next(number))
}

/// Three more.
pub fn third(number: u32) -> u32
    requires { number < 800 }
    ensures more { number + 2 < result }
    ensures some { 2 < result }
{
    let two = second(number);
    next(two)
}

/// A number that is at most the one given.
pub fn below(number: u32) -> u32
    ensures { result ≤ number }
{
    number / 2
}

/// A number that is even where the one given is.
pub fn like(number: u32) -> u32
    requires { number < 1000 }
    ensures { result % 2 ≡ number % 2 }
{
    let like = number;
    like
}

/// A number.
#[derive(Clone, Copy, PartialEq, Eq)]
pub struct Number(u32);

impl Number {
    /// The number of this.
    pub fn get(self) -> u32
        ensures { result ≡ self.0 }
    {
        self.0
    }
}
"""

# what `third` ensures: the second answer rests on the first, which names a call
ANSWERS = """use Rattle.std.proofs.Common.{arith}
use Rattle.lib_of_halves.proofs.third.Goals as goal

pub returns-clause-more : goal.returns-clause-more
returns-clause-more c = omega (arith, c.second-two.ensures)

pub returns-clause-some : goal.returns-clause-some
returns-clause-some c = let more = returns-clause-more c in omega arith
"""

# the name of an edit, its text, and a word of what the tool says of it
EDITS = [
    # (the first of a function is made in it, and so stands beside refused copies of it)
    ("accepted_beside_copies", "old:     number + 1\nnew:     1 + number\n", "NOT REFUSED"),
    ("refused_in_a_copy", "old:     number + 1\nnew:     number + 2\n", "lib::next_edit_1 did not prove"),
    ("refused_too_in_a_copy", "old:     number + 1\nnew:     number + 3\n", "lib::next_edit_2 did not prove"),
    # (a square is even where its number is, but the search knows nothing of it)
    ("refused_by_search_alone", "old: like = number;\nnew: like = number * number;\n", "lib::like did not prove"),
    # the same value, without the call that an answer names: in `third`, and the one below in a copy of it
    ("only_names_fail", "old: second(number);\nnew: number + 2;\n", "only a proof file that names"),
    ("refused_by_an_answer", "old:     next(two)\nnew:     next(two) - 1\n", "`returns-clause-more`"),
    ("refused_in_a_method", "old:         self.0\nnew:         self.0 / 2\n", "lib::Number::get did not prove"),
    ("accepted", "old:     number / 2\nnew:     number / 3\n", "NOT REFUSED"),
    # the same value, while the function that it calls is edited beside it in the same check
    ("only_what_it_calls_is_refused", "old: next(next(number))\nnew: next(next(number) + 0)\n", "NOT REFUSED"),
    # (it stands behind the edits of `next` and `third`, so that those go together)
    ("will_not_compile", "old:         self.0\nnew:         self.one\n", "BAD EDIT: it doesn't reach the prover"),
    ("cannot_be_applied", "old:     number / 5\nnew:     number / 2\n", "BAD EDIT: an 'old:' text is in"),
    ("changes_a_contract", "old:     ensures { result ≤ number }\nnew:     ensures { result < number }\n", "outside the bodies"),
    ("changes_two_functions", "old:     number / 2\nnew:     number\nold:     number + 1\nnew:     number + 3\n", "bodies of 2 functions"),
    ("the_same_change", "old:   number + 1\nnew:   number + 2\n", "the same change as refused_in_a_copy"),
]


# what the prover says of a function `like` under an edit, and the goals where it is refused by search alone
OPEN = "fn lib::like: no proof: expected answers in ./proofs/like/Answers.antt; `search` did not prove `returns`, `overflow_mul-like`\n"
ERROR = "./proofs/like/Answers.antt:5:13: error: `returns`: "
NO_PROOF = f"{ERROR}`search`: no proof of `number % 2 ≡ 0`\n  was found."
LIKE = "fn lib::like: not proved\n"
WORDS = [
    ("goals have no answer", OPEN, "`returns`, `overflow_mul-like`"),
    ("an answer is a search", f"{NO_PROOF}\n{LIKE}", "`returns`"),
    ("one goal has no answer, and that of another is a search", f"{NO_PROOF}\n{OPEN}", "`returns`, `overflow_mul-like`, `returns`"),
    ("values are told of a goal without an answer", f"{OPEN}note: `returns` of proofs/like/Answers.antt may be false: the known facts allow `c.args.number` = `1`\n", None),
    ("values are told of another function's goal", f"{OPEN}note: `returns` of proofs/like_edit_1/Answers.antt may be false: the known facts allow `c` = `1`\n", "`returns`, `overflow_mul-like`"),
    ("values are told by an answer that is a search", f"{NO_PROOF} `grind`: the goal does not follow. The hypotheses hold, and the goal fails at `c` = `1`\n{LIKE}", None),
    ("an answer that is no search fails", f"{ERROR}`omega`: the goal does not follow from what it read\n{OPEN}", None),
    ("an answer of another function fails", f"{ERROR.replace('like', 'next')}`omega`: no\n{OPEN}", "`returns`, `overflow_mul-like`"),
    ("an answer names what is gone", f"{ERROR}`c` has no field `next`\n{OPEN}", "`returns`, `overflow_mul-like`"),
]


def make(root, edits=EDITS):
    """Makes a repository of one crate with these edits. Its text is new each time: what `rt ci` has proved of a text before, it keeps."""
    crate = root / "crates" / "lib_of_halves"
    (crate / "src").mkdir(parents=True)
    (crate / "refused").mkdir()
    (root / "crates.txt").write_text("lib_of_halves:\n", encoding="utf-8")
    code = CODE.replace("their sums.", f"their sums, made at {time.time_ns()}.", 1)
    (crate / "src" / "lib.rt").write_text(code, encoding="utf-8")
    (crate / "proofs" / "third").mkdir(parents=True)
    (crate / "proofs" / "third" / "Answers.antt").write_text(ANSWERS, encoding="utf-8")
    if edits:
        text = "\n".join(f"edit: {name}\n{text}" for name, text, _ in edits)
        (crate / "refused" / "lib.edits").write_text(f"# of halves\n\n{text}", encoding="utf-8")


def add_must_fail(root):
    """Adds a must-fail/ of two edits."""
    folder = root / "crates" / "lib_of_halves" / "must-fail"
    folder.mkdir()
    for name, text, _ in EDITS:
        if name in ("refused_in_a_copy", "refused_in_a_method"):
            (folder / f"{name}.edit").write_text(f"file: src/lib.rt\n{text}", encoding="utf-8")


def faults_of_gate():
    """Returns what isn't as it must be of `rt ci` on the same crate with its edits tried beside it, and of what it keeps of it."""
    with tempfile.TemporaryDirectory(prefix="refused-test-") as folder:
        root = pathlib.Path(folder) / "repository"
        make(root)
        add_must_fail(root)
        plant_sums(root)
        how = {"cwd": root, "stdin": subprocess.DEVNULL, "stdout": subprocess.PIPE, "stderr": subprocess.STDOUT, "text": True}
        words = [sys.executable, str(TOOL / "gate.py"), f"{folder}/room", "--all"]
        ran = subprocess.run(words, **how)
        edits = pathlib.Path(folder, "room", "edits").read_text(encoding="utf-8")
        crate = RT.rtlib.crates_below(str(root))[0]
        seed = pathlib.Path(folder, "room", "seeds", crate.name)
        kept = len(list(seed.rglob("*.oantt")))
        seconds, spent = (pathlib.Path(folder, "room", it).read_text(encoding="utf-8") for it in ("seconds", "spent"))
        check = [RATTLE, "check", *crate.words(["--jobs", "1"], keeps=False), "--incremental", str(seed)]
        said = subprocess.run(check, **{**how, "cwd": crate.folder}).stdout
        # (there is nothing to prove in a folder that has no crates.txt)
        status = subprocess.run(words, **{**how, "cwd": folder}).returncode
        none = pathlib.Path(folder, "room", "edits").read_text(encoding="utf-8")
    faults = faults_of_edits(edits)
    if none.rstrip("\n").split("\n")[-1] != "0 passed, 1 failed":
        faults.append(f"where there is no edit to try, none is told to have failed: {none}")
    if not re.fullmatch(rf"{crate.name} [1-9]\d*\n", seconds):
        faults.append(f"the seconds of the one crate are noted as {seconds!r}")
    if not re.fullmatch(rf"CPU s of {crate.name}: proof [1-9]\d*, must-fail [1-9]\d*, edits [1-9]\d*\n", spent):
        faults.append(f"the CPU seconds of the one crate are noted as {spent!r}")
    if status != 2:
        faults.append(f"rt ci ends with 2 where there is no crates.txt, and gate.py ended with {status}")
    if ran.returncode or ran.stdout.rstrip("\n").split("\n")[-1] != "3 passed, 0 failed":
        faults.append(f"rt ci ended with {ran.returncode}, and not with 0 and 3 passed, 0 failed: {ran.stdout[-1000:]}")
    if f"seeds: the edits of {crate.name} begin over {kept} modules\n" not in ran.stdout:
        faults.append(f"the edits of must-fail/ didn't begin over the {kept} modules that were kept")
    # of `next`, `third` and `get`
    if f"refused: {crate.name}: over what was proved of it, proved: 3 copies (" not in ran.stdout:
        faults.append("the edits of refused/ didn't begin over what was proved, and a copy of each function that is copied")
    found = re.search(rf"^crate {crate.name}: modules loaded=(\d+) checked=(\d+)$", said, re.M)
    if not found or int(found[1]) <= int(found[2]):
        faults.append(f"less than half of what was proved is kept: {found[0] if found else said[-1000:]}")
    return faults


def faults_of_edits(said):
    """Returns what isn't as it must be of what is said of the edits."""
    faults = []
    for name, _, word in EDITS:
        line = next((it for it in said.split("\n") if f"/{name}: " in it), "no line")
        is_refused = ": refused, as it must be: " in line
        if word.replace("lib::", "lib_of_halves::") not in line or is_refused != name.startswith("refused"):
            faults.append(f"{name}: {line}")
    alone = {name for name, *_ in EDITS if f"/{name}: by search alone, which did not prove `" in said}
    if alone != {name for name, *_ in EDITS if name.startswith("refused_by_search_alone")}:
        faults.append(f"refused by search alone are {sorted(alone)}")
    refused = sum(it[0].startswith("refused") for it in EDITS)
    if f": {len(EDITS)} of {len(EDITS)} tried, {refused} refused, of them {len(alone)} by search alone, over " not in said:
        faults.append(f"it isn't said that all are tried, {refused} refused, and how many of them by search alone")
    last = f"{refused} passed, {len(EDITS) - refused} failed"
    if said.rstrip("\n").split("\n")[-1] != last:
        faults.append(f"the last line is not {last}")
    return faults


def faults_of_words():
    """Returns what isn't as it must be of which edits are told to be refused by search alone."""
    trial = Trial(None, [], [], None, lambda text: None)
    told = [(what, trial.judge("lib::like", said), goals) for what, said, goals in WORDS]
    return [f"where {what}, an edit is judged {it}" for what, it, goals in told if not it[0] or it[2] != goals]


def faults_of_last_look():
    """Returns what isn't as it must be where an edit's check leaves something in what the edits are tried over."""
    with tempfile.TemporaryDirectory(prefix="refused-test-") as folder:
        edit = type("Edit", (), {"why": None, "change": None})()
        trial = Trial(types.SimpleNamespace(name="lib_of_halves"), [edit], [], folder, lambda text: None)
        trial.is_proved = True
        kept = pathlib.Path(folder, "kept")
        kept.write_text("proved", encoding="utf-8")
        counts = []
        for text in ("proved", "edited"):
            trial.begin(1)
            trial.refused[edit] = "refused"
            kept.write_text(text, encoding="utf-8")
            trial.end()
            counts.append((len(trial.refused), len(trial.failed)))
    return [] if counts == [(1, 0), (0, 1)] else ["an edit counts though what it was tried over isn't what was proved"]


def faults_of_links():
    """Returns what isn't as it must be where a check writes into a copy of kept work: into notes, which the prover does."""
    with tempfile.TemporaryDirectory(prefix="refused-test-") as folder:
        kept, copy = pathlib.Path(folder, "kept"), pathlib.Path(folder, "copy")
        kept.mkdir()
        for name in ("module.oantt", "compared"):
            (kept / name).write_text("proved", encoding="utf-8")
        linked(kept, copy)
        with open(copy / "compared", "a", encoding="utf-8") as it:
            it.write("edited")
        own = {it.name: (it.read_text(encoding="utf-8"), it.samefile(copy / it.name)) for it in kept.iterdir()}
    wanted = {"module.oantt": ("proved", True), "compared": ("proved", False)}
    return [] if own == wanted else [f"what was kept is, behind a check over its copy, {own}"]


def faults_of_lanes():
    """Returns what isn't as it must be of which proofs get more jobs, and how many: those that all others wait for, but those below them,
    as many as there are lanes, but four at the most, and what the kit gives them where no number of lanes is told."""
    waits = {"lowest": [], "low": ["lowest"], "left": ["lowest", "low"], "right": ["lowest", "low"], "top": ["lowest", "low", "left"]}
    tasks = {(name, "proof"): ([(it, "proof") for it in below], 1, 1, lambda given, jobs: jobs) for name, below in waits.items()}
    tasks["left", "edits"] = ([("left", "proof")], 1, 1, lambda given, jobs: jobs)
    faults, given = [], os.environ.get("RT_JOBS")
    for lanes, wanted in (("3", 3), ("9", 4), ("0", 1), ("some", 1), ("", 1)):
        os.environ["RT_JOBS"] = lanes
        jobs = {name: call({}, 1) for (name, _), (*_, call) in gate.hastened(tasks).items()}
        if jobs != {"lowest": wanted, "low": wanted}:
            faults.append(f"where RT_JOBS is {lanes!r}, the proofs that get more jobs are {jobs}")
    os.environ.pop("RT_JOBS") if given is None else os.environ.update(RT_JOBS=given)
    return faults


def faults_of_libraries():
    """Returns what isn't as it must be of which libraries are taken as they were built."""
    spec = importlib.util.spec_from_file_location("refused", TOOL / "__main__.py")
    tool = importlib.util.module_from_spec(spec)
    spec.loader.exec_module(tool)
    faults = []
    with tempfile.TemporaryDirectory(prefix="refused-test-") as folder:
        make(pathlib.Path(folder))
        made = pathlib.Path(folder, "crates", "lib_of_halves", "out", "rlib")
        crate = types.SimpleNamespace(name="lib_of_halves", stamp=lambda: "now")
        wanted = [("with no library", False), ("as rt ci built it", True), ("older than its sources", False), ("of this stamp", True), ("of another stamp", False)]
        for what, is_wanted in wanted:
            if what == "as rt ci built it":
                (made / "lib_of_halves.rlib").mkdir(parents=True)
            elif what == "older than its sources":
                os.utime(made / "lib_of_halves.rlib", (0, 0))
            elif what != "with no library":
                (made / "stamp").write_text("now" if is_wanted else "before", encoding="utf-8")
            if tool.is_up_to_date(crate, str(made)) != is_wanted:
                faults.append(f"a crate {what} is {'built anew' if is_wanted else 'taken as it is'}")
    return faults


def faults_of_reading():
    """Returns what isn't as it must be of which edits are read, and why some can't be tried."""
    files = {
        "one.edits": "edit: first\nold: a\nnew:\n# why\nedit: twice\nold:  b\nnew: c\nold: d\nnew: e\n",
        "folder/two.edits": "old: a\nedit: twice\nold: a\nnew: b\nedit: no name\n",
        "three.edit": "file: src/one.rt\nold: a\nnew: b\n",
        "README.md": "what these are\n",
    }
    wanted = [
        ("first", "file: src/one.rt\nold: a\nnew:\n", False),
        ("twice", "file: src/one.rt\nold:  b\nnew: c\nold: d\nnew: e\n", False),
        ("three.edit", "", True),
        ("folder/two.edits:1", "", True),
        ("twice", "file: src/folder/two.rt\nold: a\nnew: b\n", True),
        ("folder/two.edits:5", "", True),
    ]
    with tempfile.TemporaryDirectory(prefix="refused-test-") as folder:
        for path, text in files.items():
            file = pathlib.Path(folder, path)
            file.parent.mkdir(exist_ok=True)
            file.write_text(text, encoding="utf-8")
        read = [(it.name, it.text, bool(it.why)) for it in read_edits(folder)]
    return [] if sorted(read) == sorted(wanted) else [f"of edits in files these are read: {read}"]


def plant_sums(root):
    """Has the file `tried` say that all edits were tried over what stands there."""
    tried = turns.Tried(str(root))
    tried.sums = {it.name: turns.sum_of_crate(it) for it in RT.rtlib.crates_below(str(root))}
    (root / turns.FILE).parent.mkdir(parents=True, exist_ok=True)
    (root / turns.FILE).write_text(tried.text(), encoding="utf-8")


# changes of a crate's source, and whether crates above read what they say
CHANGES = [
    ("number / 2", "number / 3", "own"),
    ("/// One more.", "/// The next.", "own"),
    ("{ result ≤ number }", "{ result < number + 1 }", "all"),
    ("pub fn below", "#[inline]\npub fn below", "all"),
    ("struct Number(u32)", "struct Number(u64)", "all"),
    ("pub fn below", "pub const fn below", "all"),
    ("number / 3", "number / 2", "all"),
]


class Turns:
    """A crate, one above it, and one above that, each of 20 edits, of which a run refuses all but those that are to fail."""

    def __init__(self, root):
        make(root)
        self.root, self.file, self.crates = root, root / turns.FILE, ["lib_of_halves", "lib_above", "lib_top"]
        (root / "crates.txt").write_text("lib_of_halves:\nlib_above: lib_of_halves\nlib_top: lib_above\n", encoding="utf-8")
        above = [f"crates/{name}/{part}" for name in self.crates[1:] for part in ("src", "refused")]
        for part in (*above, "crates/lib_of_halves/specs", self.file.parent, ".git"):
            (root / part).mkdir(parents=True, exist_ok=True)
        for path in ("crates/lib_above/src/lib.rt", "crates/lib_top/src/lib.rt", "crates/lib_of_halves/specs/Halves.antt"):
            (root / path).write_text("", encoding="utf-8")

    def run(self, is_all=False, failing=(), notes=True):
        """Returns which edits of each crate a run tries, by place, and takes over what it says."""
        tried, said = turns.Tried(str(self.root)), io.StringIO()
        trials = [Trial(it, [Edit(f"{at}") for at in range(20)], [], "", print) for it in RT.rtlib.crates_below(str(self.root))]
        tried.choose(trials, is_all)
        for it in trials:
            it.refused = {edit: "refused" for edit in it.edits if it.crate.name not in failing}
        with contextlib.redirect_stdout(said):
            report(trials, tried)
        if notes:
            self.file.write_text(turns.noted(str(self.root), said.getvalue()), encoding="utf-8")
        return {it.crate.name: [int(edit.name) for edit in it.edits] for it in trials}

    def whole(self, **how):
        """Returns the crates of which a run tries all edits."""
        return [name for name, tried in self.run(**how).items() if len(tried) == 20]

    def changed(self, path, was="", now="\n"):
        """Returns the crates of which all edits are tried once a file has changed at its first such text, and once that is noted."""
        file = self.root / "crates" / path
        text = file.read_text(encoding="utf-8") if file.exists() else ""
        file.write_text(text.replace(was, now, 1), encoding="utf-8")
        return self.whole(), self.whole()


def faults_of_turns():
    """Returns what isn't as it must be of which edits a run tries, by what has changed since they were last tried."""
    with tempfile.TemporaryDirectory(prefix="refused-test-") as folder:
        it = Turns(pathlib.Path(folder, "repository"))
        every, low = it.crates, it.crates[:1]
        told = [("with no file tried", it.whole(), every), ("as it was noted", it.whole(), []), ("with --all", it.whole(is_all=True), every)]
        for path, wanted in (("src/lib.rt", low), ("specs/Halves.antt", every), ("proofs/third/Answers.antt", low), ("refused/lib.edits", low)):
            told.append((f"behind a change of {path}", it.changed(f"lib_of_halves/{path}"), (wanted, [])))
        for was, now, wanted in CHANGES:
            found = it.changed("lib_of_halves/src/lib.rt", was, now)
            told.append((f"where {now!r} stands in the place of {was!r}", found, (low if wanted == "own" else every, [])))
        told.append(("behind a change of the crate above", it.changed("lib_above/src/lib.rt"), (every[1:2], [])))
        told.append(("behind a run in which the lower's fail", (it.whole(failing=low), it.whole()), ([], low)))
        logic, turns.logic = turns.logic, lambda: "other"
        told.append(("under another logic", it.whole(notes=False), every))
        turns.logic = logic
        part = f"refused: {low[0]}: 3 of 20 tried, 3 refused, of them 0 by search alone, over 0123\n"
        told.append(("behind a run of some edits", turns.noted(str(it.root), part), it.file.read_text(encoding="utf-8")))
        told.append(("behind a failed run that isn't noted", it.run(notes=False, failing=low), it.run(notes=False)))
        for notes, has_git in ((True, True), (False, True), (True, False)):
            if not has_git:
                (it.root / turns.RUNS).unlink(missing_ok=True)
                (it.root / ".git").rmdir()
            tried = [it.run(notes=notes) for _ in range(turns.TURNS)]
            for name in every:
                counts = [len(run[name]) for run in tried]
                places = sorted(at for run in tried for at in run[name])
                told.append((f"in eight runs, noted: {notes}, with a folder .git: {has_git}", (places, {*counts} <= {2, 3}), ([*range(20)], True)))
        before = it.run(notes=False)
        told.append(("in the next run, where none can be noted", it.run(notes=False), before))
    return [f"{what}, tried whole or by place are {found}, and not {wanted}" for what, found, wanted in told if found != wanted]


def run_alone(root):
    """Returns the status of the tool without `rt ci`, and its last line."""
    ran = subprocess.run([sys.executable, str(TOOL), "--root", str(root)], stdin=subprocess.DEVNULL, stdout=subprocess.PIPE, text=True)
    return ran.returncode, ran.stdout.rstrip("\n").split("\n")[-1]


def faults_alone():
    """Returns what isn't as it must be of the tool without `rt ci`: of no edit, and of one that isn't refused though the file `tried` says
    that all were. (That gate.py finds such with --all, `faults_of_gate` shows.)"""
    faults = []
    with tempfile.TemporaryDirectory(prefix="refused-test-") as folder:
        make(pathlib.Path(folder), [])
        if run_alone(folder) != (1, "0 passed, 1 failed"):
            faults.append("where there is no edit to try, none is told to have failed")
    with tempfile.TemporaryDirectory(prefix="refused-test-") as folder:
        root, runs = pathlib.Path(folder), [(0, "")]
        make(root, [it for it in EDITS if it[0] in ("refused_in_a_method", "accepted")])
        (root / ".git").mkdir()
        plant_sums(root)
        while not runs[-1][0] and len(runs) <= turns.TURNS:
            runs.append(run_alone(root))
        if runs[-2:] != [(0, "1 passed, 0 failed"), (1, "0 passed, 1 failed")] or {*runs[1:-2]} != {(0, "0 passed, 0 failed")}:
            faults.append(f"of an edit that is refused and one that isn't, runs by turns end with {runs[1:]}")
        if (root / "crates" / "lib_of_halves" / "out").exists():
            faults.append("it wrote into the repository")
    return faults


def main():
    faults = faults_of_reading() + faults_of_words() + faults_of_turns() + faults_of_lanes() + faults_of_gate() + faults_of_last_look() + faults_of_links()
    faults += faults_of_libraries() + faults_alone()
    for it in faults:
        print(f"the test of tools/refused: {it}")
    if not faults:
        print(f"the test of tools/refused: each of {len(EDITS)} edits was told for what it is")
    return 1 if faults else 0


if __name__ == "__main__":
    sys.exit(main())
