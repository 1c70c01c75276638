"""The programs of threads on the project's two lines, each built in a folder of its own beside copies of the crates."""

import pathlib
import shutil
import subprocess

ROOT = pathlib.Path(__file__).resolve().parents[2]
SOURCE = ROOT / "tools/speed/operations"
# the source names the line under a lock word; on separate words it is the same text with other names
LINES = {
    "sci_coarse": {},
    "sci_fine": {"sci_coarse": "sci_fine", "CoarseLine": "FineLine", "CoarsePort": "FinePort", "under lock words": "on separate words"},
}


def write(text, target, names):
    """The program's text with these names; its files end in .txt, since the gate reads each source below the top as a crate's."""
    content = text.read_text()
    for old, new in names.items():
        content = content.replace(old, new)
    target.parent.mkdir(parents=True, exist_ok=True)
    target.write_text(content)


def build(folder, line):
    """The program on this line, proved and built in this folder; the crates bring along what is proved of them already."""
    folder = folder / f"on_{line}"
    crates = folder / "crates"
    program = crates / "operations/out/operations"
    if program.exists():
        return program
    crates.mkdir(parents=True)
    used = ["sci_words", "sci_core", "sci_port", "sci_ops", "sci_cache", line]
    for crate in used:
        shutil.copytree(ROOT / "crates" / crate, crates / crate)
    for text in SOURCE.rglob("*.txt"):
        write(text, crates / "operations" / text.relative_to(SOURCE).with_suffix(""), LINES[line])
    shutil.copy(ROOT / "HANDLES", folder)
    listed = [entry for entry in (ROOT / "crates.txt").open() if entry.split(":")[0] in used]
    (folder / "crates.txt").write_text("".join(listed) + f"operations: {' '.join(used)} crossbeam_utils\n")
    command = ["rt", "run", "operations", "--jobs", "2", "--", "adds", "one", "0"]
    subprocess.run(command, cwd=crates / "operations", stdout=subprocess.DEVNULL, stderr=subprocess.DEVNULL, check=True)
    return program
