"""Which edits a run tries: all of a crate where anything has changed that they are tried over, else every eighth, by turns.

The file `tried` beside this one has, by crate, the sum of what all its edits were tried over when they were last refused, and the turn of
the next run. No run writes into it: each says what it tried, and `noted` takes that over."""

import functools
import hashlib
import os
import pathlib
import re
import zlib

import functions
from kit import RT, sum_of

TURNS = 8
FILE = "tools/refused/tried"
# how far the runs of this clone have come; without a folder .git (as in a worktree) each run has the file's own turn
RUNS = ".git/refused-turns"
# what a run says of each crate
SAID = re.compile(rf"refused: (\w+): (\d+) of (\d+) tried(?: \(turn (\d) of {TURNS}\))?, (\d+) refused, .*, over (\w+)$", re.M)


class Tried:
    """The file `tried` of a repository, and the turn of its next run."""

    def __init__(self, root):
        self.root = root
        self.sums = dict(re.findall(r"^(\w+) (\w+)$", RT.rtlib.text_of(f"{root}/{FILE}") or "", re.M))
        told = self.sums.pop("turn", "")
        self.first = self.turn = int(told) if re.fullmatch(f"[1-{TURNS}]", told) else 1
        runs = re.fullmatch(rf"turn {self.first}, next ([1-{TURNS}])\n", RT.rtlib.text_of(f"{root}/{RUNS}") or "")
        if runs:
            self.turn = int(runs[1])

    def text(self):
        return "".join(f"{it}\n" for it in [f"turn {self.first}", *(" ".join(it) for it in sorted(self.sums.items()))])

    def choose(self, trials, is_all=False):
        """Leaves each trial the edits that this run tries."""
        for it in trials:
            it.over, it.count = sum_of_crate(it.crate), len(it.edits)
            if not is_all and self.sums.get(it.crate.name) == it.over:
                it.turn = self.turn
                it.edits = of_turn(it.edits, it.turn, it.crate.name)

    def go_on(self, trials):
        """Notes for the next run of this clone that every edit of this turn was refused."""
        if any(it.turn for it in trials):
            try:
                with open(f"{self.root}/{RUNS}", "w", encoding="utf-8") as it:
                    it.write(f"turn {self.first}, next {self.turn % TURNS + 1}\n")
            except OSError:
                pass


def of_turn(edits, turn, name):
    """Returns each eighth edit of a crate; the crate's name says from which on, so that those of few edits aren't all tried in the first."""
    first = zlib.crc32(name.encode())
    return [it for at, it in enumerate(edits) if (first + at) % TURNS == turn - 1]


def sum_of_crate(crate):
    """Returns the sum of what a crate's edits are tried over. Of the crates below, proofs don't count, nor do the bodies of functions: what
    is above reads what they state."""
    found = hashlib.blake2b(digest_size=16)
    for part in (*RT.rtlib.PARTS, "refused"):
        found.update(f"{crate.name}/{part} ".encode() + sum_of(f"{crate.folder}/{part}"))
    for it in crate.below():
        found.update(f"{it.name}/specs ".encode() + sum_of(f"{it.folder}/specs") + sum_of_statements(it.folder, sum_of(f"{it.folder}/src")))
    words = [it.replace(RT.KIT, "").replace(os.path.dirname(crate.folder), "") for it in crate.words(["--jobs", "1"], keeps=False)]
    found.update(repr((words, logic())).encode())
    return found.hexdigest()


@functools.cache
def sum_of_statements(folder, _):
    """Returns the sum of all that the files of src/ say outside the bodies of functions; a constant may be what such a body says where that
    is `const`. The second argument is the sum of src/ as it stands."""
    found = hashlib.blake2b()
    files = sorted(it for it in pathlib.Path(folder, "src").rglob("*.rt"))
    for file, tokens in zip(files, functions.tokens_of([*map(str, files)])):
        path = str(file.relative_to(folder))
        code = [text for kind, text, _, _ in tokens or () if kind == "Code"]
        is_whole = tokens is None or ("const", "fn") in zip(code, code[1:])
        said = file.read_bytes() if is_whole else repr(functions.items_of(path, tokens).rest).encode()
        found.update(f"{path} {len(said)} ".encode() + said)
    return found.digest()


def logic():
    """Returns the sum that the kit tells behind its name: one with another letter may have the same."""
    return (RT.rtlib.text_of(f"{RT.KIT}/KIT-ID") or "").partition(" logic ")[2].strip()


def noted(root, said):
    """Returns the text of the file `tried` behind a run, given what that said, or None where it says of no crate what was tried."""
    tried, found = Tried(root), SAID.findall(said)
    for name, count, of, turn, refused, over in found:
        if refused != count:
            tried.sums.pop(name, None)
        elif count == of:
            tried.sums[name] = over
        tried.first = int(turn) % TURNS + 1 if turn else tried.first
    tried.sums = {name: it for name, it in tried.sums.items() if os.path.isdir(f"{root}/crates/{name}/refused")}
    return tried.text() if found else None
