"""The kit's own `rt`, as a module: how it checks a crate, reads an edit and shares the processors."""

import hashlib
import importlib.machinery
import importlib.util
import os
import shutil
import sys


def load():
    """Returns the module, or ends the program where there is no kit."""
    path = shutil.which("rt")
    if not path:
        sys.exit("refused: there is no rt on the path")
    sys.dont_write_bytecode = True
    loader = importlib.machinery.SourceFileLoader("rt", os.path.realpath(path))
    made = importlib.util.module_from_spec(importlib.util.spec_from_loader("rt", loader))
    loader.exec_module(made)
    made.rtlib.Crate = made.Crate
    # (its first call sets a signal's handler, which only the main thread may)
    made.rtlib.guarded()
    return made


def linked(folder, to):
    """Copies a folder of kept work, its modules by links where it can: the prover replaces a module, and writes into its notes."""
    shutil.copytree(folder, to, copy_function=link_or_copy, dirs_exist_ok=True)


def link_or_copy(file, to):
    try:
        if file.endswith(".oantt"):
            return os.link(file, to)
    except OSError:
        pass
    return shutil.copy2(file, to)


def sum_of(folder):
    """Returns a sum of all that stands in a folder."""
    found = hashlib.blake2b()
    for at, folders, files in os.walk(folder):
        folders.sort()
        for file in sorted(files):
            with open(f"{at}/{file}", "rb") as it:
                found.update(f"{os.path.relpath(at, folder)}/{file}\n".encode() + hashlib.blake2b(it.read()).digest())
    return found.digest()


RT = load()
RATTLE = RT.rtlib.RATTLE
