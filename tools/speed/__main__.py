"""How fast it is, beside what plain Rust makes of the same: turns of scripts, dumps, and operations of threads.

    python3 tools/speed [--runs N] [--check] [--only scripts|traces|races|dumps|works|threads] [--keep FOLDER]

The peers stand in tools/peers, and are built here by rustc; without it the project's programs are measured alone. All programs of
a table run in turn, so that whatever else the machine does meets all of them; ratios hold from run to run, rates don't.

First, how many turns a second `scisim script` makes, by the number of nodes, lines and bytes of the script, where its text goes to
/dev/null and to a pipe, beside a plain Rust simulator that reads and prints the same. Each script is of random loads, stores,
additions and evictions, each taken to its end before the next begins. A run's time is that of the whole program on a processor: it
reads the script, checks it, runs it and writes the answers; the best of N runs counts, and the ratio says how many times as fast
the peer is. What is printed must be the same of both, and hold no `waits` and one answer a call. With --check the scripts take
each turn by a command of its own, so the number of turns that is counted here is the program's.
Then the same calls by the program alone, with each capacity of the nodes' caches in turn; the turns of victims' exits count too.

Behind it, how many turns a second `scisim trace` makes beside `scisim script` on the same script, by its processor time to
/dev/null, where `done` takes the turns and where each is a command of its own; what it prints must have a line for each turn.

Then, how long `scisim outcomes` takes over each race of examples/, beside a search in plain Rust that finds and prints the same; and how
many instructions, where valgrind is installed.

Next, how long a processor takes to read and check a dump of 1,024 lines that 64 nodes share, by `read_dump` and `check`, beside a
plain Rust program that reads it, looks at the same rules and makes the lists; the best of N runs counts, in turn.

Then, how long `scisim run` takes over a stencil, by the number of its threads, and over a ring, beside plain Rust with a Mutex round
each line (mutex) and beside a lean body of the same rows (lean): processor time with all threads on one processor, where it repeats,
the best of N runs, and from start to end on all processors, the median; in turn. All read the same settings and must print the
same: `scisim` reads them by `toml`, as any TOML, and the peers by splitting, which reads only what is written here; how long each
reads those of the ring is told apart. Where valgrind is installed, how many instructions a call of the stencil takes, by one thread.

Last, how many operations a second threads make, each by a seat of its own, and by the same operation again while it waits:
additions of 1 to word 0 of a line, and loads of a line. The project's program (tools/speed/operations) is built beside copies of
the crates, once on lines under a lock word (sci_coarse) and once on lines of separate words (sci_fine); its peers are std's Mutex
and RwLock round eight words, and a lean Rust body of the same rows, on separate words 128 bytes apart (words) and under a lock
word that each call takes (lock). A ratio is to the Mutex for additions, and to the RwLock for loads: above 1 is faster than that.
Threads work in bursts that all begin together, each on a processor of its own; a burst counts where its threads were on a
processor for 80 % of it, so that they truly met, and `n` bursts did. A rate is the median over rounds of the median of a round's
bursts, a ratio the median of the ratios within a round. Where no burst counts, a star stands, and all are taken, of the other too.
The programs of threads, and that of dumps, are proved before they are built, in some minutes; with --keep they stay in the folder, and those that
stand there are taken as they are.
"""

import argparse
import pathlib
import shutil
import subprocess
import tempfile

import dumps
import races
import scripts
import threads
import works

ROOT = pathlib.Path(__file__).resolve().parents[2]


def build_peers(folder):
    """The peers' programs by name, in this folder; none where there is no rustc."""
    if not shutil.which("rustc"):
        print("no rustc: the peers are left out", flush=True)
        return {}
    built = {}
    for name in ["sim", "dumps", "works", "threads"]:
        built[name] = folder / name
        source = ROOT / "tools/peers" / name / "main.rs"
        subprocess.run(["rustc", "--edition", "2021", "-C", "opt-level=3", "-o", built[name], source], check=True)
    return built


def main():
    parser = argparse.ArgumentParser(prog="speed")
    parser.add_argument("--runs", type=int, default=5)
    parser.add_argument("--check", action="store_true")
    parser.add_argument("--only", choices=["scripts", "traces", "races", "dumps", "works", "threads"])
    parser.add_argument("--keep", type=pathlib.Path)
    chosen = parser.parse_args()
    with tempfile.TemporaryDirectory() as name:
        folder = pathlib.Path(name)
        peers = build_peers(folder)
        program = ROOT / "crates/sci_sim/out/sci_sim"
        if chosen.only in (None, "scripts", "traces", "races", "works"):
            subprocess.run([ROOT / "scisim", "--build"], check=True)
        if chosen.only in (None, "scripts"):
            programs = {"scisim": program} | ({"plain": peers["sim"]} if peers else {})
            scripts.measure_all(programs, chosen.runs, chosen.check)
        if chosen.only in (None, "traces") and not chosen.check:
            scripts.measure_traces(program, chosen.runs)
        if chosen.only in (None, "races") and not chosen.check:
            races.measure_all(program, peers.get("sim"), chosen.runs)
        if chosen.only in (None, "works") and not chosen.check:
            works.measure_all(folder, program, peers.get("works"), chosen.runs)
        if chosen.only in (None, "dumps") and not chosen.check:
            dumps.measure_all(folder, (chosen.keep or folder).resolve(), peers.get("dumps"), chosen.runs)
        if chosen.only in (None, "threads") and not chosen.check:
            threads.measure_all(folder, (chosen.keep or folder).resolve(), peers.get("threads"), chosen.runs)


main()
