"""What is made of which sources. A text made_from beside a program has a line for each file: its name, the sum of its sources, its own."""

import hashlib
import os
import pathlib
import subprocess
import sys

ROOT = pathlib.Path(__file__).resolve().parents[2]
sys.path.insert(0, str(ROOT / "tools/refused"))
sys.dont_write_bytecode = True

DIST = ROOT / "dist"
OUT = ROOT / "crates/sci_sim/out"
PROGRAM = OUT / "sci_sim"
# by its name in dist/: its crate, and where the gate builds it
MADE = {"scisim": ("sci_sim", PROGRAM), "libsci_c.a": ("sci_c", ROOT / "crates/sci_c/out/libsci_c.a")}


def sources_of(crate):
    """Returns the sum of a crate's sources, with those that it stands on."""
    return subprocess.run([ROOT / "scisim", "--sources", crate], stdout=subprocess.PIPE, text=True, check=True).stdout.strip()


def sum_of(*files):
    """Returns the sum of the bytes of these files, one behind another."""
    found = hashlib.sha256()
    for file in files:
        found.update(file.read_bytes())
    return found.hexdigest()


def line_of(name, sources):
    """Returns the line that says of which sources a file was made that is built here."""
    return f"{name} {sources} {sum_of(MADE[name][1])}"


def read(folder):
    """Returns the lines of a folder's made_from, none where there is no such text."""
    file = folder / "made_from"
    return file.read_text(encoding="utf-8").splitlines() if file.is_file() else []


def write(folder, lines):
    """Writes a folder's made_from, whole or not at all."""
    (folder / "made_from.new").write_text("".join(f"{it}\n" for it in lines), encoding="utf-8")
    os.replace(folder / "made_from.new", folder / "made_from")
