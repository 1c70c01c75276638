"""Keeps what `rt ci` proves of each library with edits, for those edits to begin with.

Rattle writes each module that it has checked into a folder of its own, which it removes as it ends; a folder of kept work has such
files too. While `rt ci` proves a library from nothing, `watch` links them into FOLDER/NAME, under the name that this prover gives its
kept work. The edits of refused/ begin over them, and so does the first edit of must-fail/, as each other does over what the edits
before it kept. What is lacking is proved anew: the prover takes no module that isn't up to date.
"""

import glob
import os
import re
import subprocess
import tempfile
import threading
import time

from kit import RATTLE, RT, link_or_copy, linked

# in seconds; a library takes far longer, and what comes after the last look is proved anew
BETWEEN_LOOKS = 1
# held during a look
LOOKING = threading.Lock()


def name_of_kept():
    """Returns the name of the folder in which this prover keeps work, or None: it checks a crate without items."""
    with tempfile.TemporaryDirectory(prefix="seeds-") as room:
        os.mkdir(f"{room}/src")
        with open(f"{room}/src/lib.rt", "w", encoding="utf-8") as it:
            it.write("//! Nothing.\n")
        logic = ["--antt-project", f"{RT.KIT}/rattle/logic/antt-project.json", "--logic-built", f"{RT.KIT}/logic_built"]
        words = ["check", "--crate-name", "nothing", "src/lib.rt", *logic, "--incremental", f"{room}/kept"]
        subprocess.run([RATTLE, *words], cwd=room, stdin=subprocess.DEVNULL, stdout=subprocess.DEVNULL, stderr=subprocess.DEVNULL)
        names = os.listdir(f"{room}/kept") if os.path.isdir(f"{room}/kept") else []
        return names[0] if len(names) == 1 else None


def library_of(folder, crates):
    """Returns the crate of this repository that the process of a folder of checked modules proves as a library, or None."""
    process = re.search(r"-(\d+)-\d+\Z", folder)
    try:
        at = os.readlink(f"/proc/{process[1]}/cwd")
        with open(f"/proc/{process[1]}/cmdline", "rb") as it:
            words = it.read().split(b"\0")
    except (OSError, TypeError):
        return None
    is_library = os.path.dirname(at) == crates and b"build" in words and b"--test" not in words
    return os.path.basename(at) if is_library and os.path.isdir(f"{at}/refused") else None


def follow(folder, kept, seen):
    """Links what has come to a folder of checked modules since the last look; seen has the names that were there then."""
    os.makedirs(kept, exist_ok=True)
    for name in {*os.listdir(folder)} - seen:
        if name.endswith(".oantt") and not os.path.exists(f"{kept}/{name}"):
            link_or_copy(f"{folder}/{name}", f"{kept}/{name}")
        seen.add(name)


def look(to, name, crates, known):
    """Looks once at each folder of checked modules; known has, by folder, its crate and the names that were there before."""
    for folder in glob.glob(f"{tempfile.gettempdir()}/rattle-*-[0-9]*-[0-9]*"):
        if folder not in known:
            known[folder] = library_of(folder, crates), set()
        crate, seen = known[folder]
        if crate:
            try:
                follow(folder, f"{to}/{crate}/{name}", seen)
            except FileNotFoundError:
                # (it was removed meanwhile)
                continue


def watch(to, name, crates):
    """Looks for ever."""
    known = {}
    while True:
        with LOOKING:
            look(to, name, crates, known)
        time.sleep(BETWEEN_LOOKS)


def begun(to, check):
    """Returns the kit's check of an edit, but for this: a folder of kept work that is still empty gets the crate's seed first."""

    def check_over_seed(crate, texts, flags, kept=None, *more, **named):
        seed = f"{to}/{crate.name}"
        if kept and os.path.isdir(kept) and not os.listdir(kept) and os.path.isdir(seed):
            linked(seed, kept)
            print(f"seeds: the edits of {crate.name} begin over {sum(len(names) for _, _, names in os.walk(kept))} modules", flush=True)
        return check(crate, texts, flags, kept, *more, **named)

    return check_over_seed
