"""Dumps: how long it takes to read one and check it, beside a plain Rust program that does the same and prints the lists."""

import os
import pathlib
import shutil
import subprocess
import sys

from programs import write

ROOT = pathlib.Path(__file__).resolve().parents[2]
SOURCE = ROOT / "tools/speed/dumps"
NODES, LINES = 64, 1024


def dump_of(nodes, lines):
    """The dump of lines that all nodes share."""
    zeros, rows = " 0" * 9, [f"scidump 2 {nodes} {lines}"]
    for line in range(lines):
        rows.append(f"line {line} {(nodes - 1) << 16 | 1:016x}{zeros}")
        for node in range(nodes):
            forward = node - 1 if node else 65535
            back = node + 1 if node < nodes - 1 else 65535
            kind = 7 if node < nodes - 1 else 2
            rows.append(f"tag {line} {node} {back << 32 | forward << 16 | kind:016x}{zeros}")
    return "\n".join(rows) + "\nend\n"


def build(folder):
    """The project's program, proved and built in this folder; the crates bring along what is proved of them already."""
    folder = folder / "dumps"
    crates = folder / "crates"
    program = crates / "dumps/out/dumps"
    if program.exists():
        return program
    crates.mkdir(parents=True)
    used = ["sci_words", "sci_core", "sci_dump"]
    for crate in used:
        shutil.copytree(ROOT / "crates" / crate, crates / crate)
    for text in SOURCE.rglob("*.txt"):
        write(text, crates / "dumps" / text.relative_to(SOURCE).with_suffix(""), {})
    shutil.copy(ROOT / "HANDLES", folder)
    listed = [entry for entry in (ROOT / "crates.txt").open() if entry.split(":")[0] in used]
    (folder / "crates.txt").write_text("".join(listed) + f"dumps: {' '.join(used)}\n")
    # without a file it ends with status 2, once it is built
    subprocess.run(["rt", "run", "dumps", "--jobs", "2"], cwd=crates / "dumps", stdout=subprocess.DEVNULL, stderr=subprocess.DEVNULL)
    if not program.exists():
        sys.exit("the program that reads dumps was not built")
    return program


def seconds(program, dump):
    """The seconds that a whole run was on a processor."""
    process = subprocess.Popen([program, "check", dump], stdout=subprocess.DEVNULL)
    _, status, used = os.wait4(process.pid, 0)
    process.returncode = os.waitstatus_to_exitcode(status)
    if process.returncode:
        sys.exit(f"{program} doesn't call the dump lawful")
    return used.ru_utime + used.ru_stime


def measure_all(folder, kept, peer, runs):
    programs = {"sci_dump": build(kept)} | ({"plain": peer} if peer else {})
    dump = folder / "dump"
    dump.write_text(dump_of(NODES, LINES))
    taken = [{name: seconds(program, dump) for name, program in programs.items()} for _ in range(runs)]
    best = {name: min(it[name] for it in taken) for name in programs}
    told = ", ".join(f"{name} {1000 * it:.0f} ms" for name, it in best.items())
    ratio = f", ratio {best['sci_dump'] / best['plain']:.2f}" if peer else ""
    print(f"a dump of {LINES} lines shared by {NODES} nodes, {dump.stat().st_size} bytes: {told}{ratio}", flush=True)
