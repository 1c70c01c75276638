"""dist/ has the program and the C library ready made, as the gate proved and built them last.

    python3 tools/dist build                   proves and builds the program in this tree, which is `scisim --build`
    python3 tools/dist sources                 the sums of the sources of the program and of the library
    python3 tools/dist check SECONDS SUM SUM   notes what a gate has built that began with these sums, and in how many seconds each crate
                                               was proved, and compares it with dist/, byte for byte
    python3 tools/dist take                    takes what was noted into dist/: for the last commit of a day's work

Where the sources, the kit's logic or the flags are others than those of dist/, nothing is compared, and that is no fault. Nor is it
one where other compilers made another file.
"""

import os
import pathlib
import shutil
import subprocess
import sys

import made
from made import DIST, MADE, OUT


def sums():
    """Returns the sums of the sources of all that is made."""
    return [made.sources_of(crate) for crate, _ in MADE.values()]


def compilers():
    """Returns a sum of all of the kit that the code of a proved program comes from: its prover, its compilers and its libraries."""
    from kit import RT

    kit = pathlib.Path(RT.KIT)
    files = [*kit.glob("WHAT*"), kit / "bin/rattle", kit / "bin/rattle-link", *(kit / "c").rglob("*"), *(kit / "toolchain").rglob("*")]
    return made.sum_of(*sorted(it for it in files if it.is_file()))


def built_from(sources):
    """Returns the lines that say of which sources all was made that is built here, and by which kit."""
    version = subprocess.run(["rt", "version"], stdout=subprocess.PIPE, text=True, check=True).stdout.split()
    by = [f"logic {version[version.index('logic') + 1]}", "flags --backend llvm", f"compilers {compilers()}"]
    return [made.line_of(name, it) for name, it in zip(MADE, sources)] + by


def is_faulty(name, built, kept):
    """Says how a file of dist/ compares with the built one, and returns whether it is at fault."""
    sources, its_sum = built[name].split(" ")
    like = [kept.get(name, "").split(" ")[0] == sources, kept.get("logic") == built["logic"], kept.get("flags") == built["flags"]]
    if not all(like):
        print(f"dist: {name}: dist is older than the sources: not compared")
    elif (DIST / name).is_file() and made.sum_of(DIST / name) == its_sum:
        print(f"dist: {name} is what was built, byte for byte")
    elif kept.get("compilers") == built["compilers"]:
        print(f"dist: {name} isn't what was built, from the same sources by the same compilers")
        return True
    else:
        print(f"dist: {name} isn't what was built, by other compilers")
    return False


def seconds(*tables):
    """Returns a line for each crate that one of these tables has: in how many seconds it was proved, as the last one says that has it."""
    rows = dict(row.split() for it in tables for row in it.read_text(encoding="utf-8").splitlines())
    return "".join(f"{name} {it}\n" for name, it in rows.items() if (made.ROOT / "crates" / name).is_dir())


def check(table, *sources):
    if sums() != [*sources]:
        print("dist: the sources have changed while the gate ran: nothing is noted or compared")
        return 0
    lines = built_from(sources)
    # (it has no seconds of a crate that an earlier run has proved)
    (OUT / "seconds").write_text(seconds(DIST / "seconds", pathlib.Path(table)), encoding="utf-8")
    made.write(OUT, lines)
    built, kept = (dict(it.split(" ", 1) for it in some) for some in (lines, made.read(DIST)))
    return 1 if any([is_faulty(name, built, kept) for name in MADE]) else 0


def take():
    lines = made.read(OUT)
    if len(lines) < len(MADE) or lines != built_from(sums()):
        sys.exit("dist: refused: no gate has built the program and the library here from the sources as they stand, by this kit")
    # (without this text no program of dist/ is started)
    (DIST / "made_from").unlink(missing_ok=True)
    for name, (_, file) in MADE.items():
        shutil.copy(file, DIST / f"{name}.new")
        os.replace(DIST / f"{name}.new", DIST / name)
    shutil.copyfile(OUT / "seconds", DIST / "seconds")
    made.write(DIST, lines)
    return 0


def build():
    from build import main as built

    return built()


def main(words):
    calls = {("build", 1): build, ("check", 4): check, ("take", 1): take, ("sources", 1): lambda: print(*sums())}
    if ("".join(words[:1]), len(words)) not in calls:
        sys.exit(__doc__)
    return calls[words[0], len(words)](*words[1:])


if __name__ == "__main__":
    sys.exit(main(sys.argv[1:]))
