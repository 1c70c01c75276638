"""Workloads: how long `scisim run` takes, beside plain Rust with a Mutex round each line, and beside a lean body of the same rows."""

import os
import re
import shutil
import statistics
import subprocess
import sys
import time

TILES, PHASES = 512, 200
ITEMS, LINES = 100_000, 64
CAPACITY = 1024
# each phase reads a tile and its two neighbours and writes one line; the outer tiles have one neighbour
CALLS = 4 * TILES * PHASES - 2 * PHASES


def stencil(nodes, phases=PHASES):
    """The settings of a stencil."""
    cells = ", ".join(str(cell) for cell in range(7 * TILES))
    return f'work = "stencil"\nnodes = {nodes}\ncapacity = {CAPACITY}\nphases = {phases}\ncells = [{cells}]\n'


def ring(lines=LINES):
    """The settings of a ring; those of 0 lines are read, and refused."""
    items = ", ".join(str(3 * item) for item in range(ITEMS))
    return f'work = "ring"\nlines = {lines}\ncapacity = {CAPACITY}\nitems = [{items}]\n'


def commands(program, peer, settings):
    """The program and the peers over these settings, by name."""
    return {"scisim": [program, "run", settings]} | ({name: [peer, name, settings] for name in ("lean", "mutex")} if peer else {})


def run(command, processors, wanted=0):
    """A run on these processors: seconds from its start to its end, seconds of processor time, and what it prints."""
    words = [str(word) for word in command]
    begun = time.perf_counter()
    child = subprocess.Popen(words, stdout=subprocess.PIPE, stderr=subprocess.DEVNULL, preexec_fn=lambda: os.sched_setaffinity(0, processors))
    text = child.stdout.read()
    _, status, used = os.wait4(child.pid, 0)
    took = time.perf_counter() - begun
    if os.waitstatus_to_exitcode(status) != wanted:
        sys.exit(f"{' '.join(words)} ended with {os.waitstatus_to_exitcode(status)}")
    return took, used.ru_utime + used.ru_stime, text


def measure(programs, runs, processors):
    """Seconds from start to end, and of processor time, of each program's runs, in turn; all must print the same."""
    taken, texts = {name: [] for name in programs}, set()
    for _ in range(runs):
        for name, command in programs.items():
            took, used, text = run(command, processors)
            taken[name].append((took, used))
            texts.add(text)
    if len(texts) > 1:
        sys.exit("the programs don't print the same")
    return taken


def instructions(command):
    """How many instructions a run takes."""
    words = ["valgrind", "--tool=callgrind", "--callgrind-out-file=/dev/null", *[str(word) for word in command]]
    # (callgrind counts each byte of a `rep movsb` as an instruction)
    env = {**os.environ, "GLIBC_TUNABLES": f"glibc.cpu.x86_rep_movsb_threshold={1 << 30}"}
    done = subprocess.run(words, stdout=subprocess.DEVNULL, stderr=subprocess.PIPE, text=True, check=True, env=env)
    return int(re.search(r"Collected : (\d+)", done.stderr)[1])


def measure_calls(folder, program, peer):
    """Instructions of a call of the stencil by one thread: what 200 phases take more than none, by the calls in between."""
    if not shutil.which("valgrind"):
        print("no valgrind: instructions are left out", flush=True)
        return
    totals = {}
    for phases in (0, PHASES):
        settings = folder / f"settings-{phases}.toml"
        settings.write_text(stencil(1, phases))
        totals[phases] = {name: instructions(command) for name, command in commands(program, peer, settings).items()}
    each = {name: (totals[PHASES][name] - totals[0][name]) / CALLS for name in totals[0]}
    print("\ninstructions a call of the stencil, one thread: " + ", ".join(f"{name} {count:.0f}" for name, count in each.items()), flush=True)


def measure_reading(folder, program, peer, runs, processors):
    """Milliseconds in which the ring's settings are read: by the program, which refuses them then, and by the peers."""
    settings = folder / "refused.toml"
    settings.write_text(ring(0))
    taken = [min(run([program, "run", settings], processors, 1)[1] for _ in range(runs))]
    if peer:
        taken.append(min(run([peer, "read", settings], processors)[1] for _ in range(runs)))
    print("of the ring, its settings read: " + ", ".join(f"{1000 * one:.1f}" for one in taken) + (" by the peers" if peer else ""), flush=True)


def measure_all(folder, program, peer, runs):
    print(f"\na stencil of {TILES} tiles and {PHASES} phases; a ring of {ITEMS} items on {LINES} lines; milliseconds")
    print("one: processor time with all threads on one processor, the best of the runs; all: from start to end on all, the median", flush=True)
    print(f"{'work':9}{'threads':>8}{'':>5}{'scisim':>9}{'lean':>9}{'mutex':>9}{'scisim : lean':>15}{'scisim : mutex':>16}")
    everywhere = os.sched_getaffinity(0)
    ways = [("one", {min(everywhere)}, lambda pairs: min(used for _, used in pairs))]
    ways.append(("all", everywhere, lambda pairs: statistics.median(took for took, _ in pairs)))
    for name, nodes, text in [*(("stencil", nodes, stencil(nodes)) for nodes in (1, 2, 4)), ("ring", 2, ring())]:
        settings = folder / "settings.toml"
        settings.write_text(text)
        for way, processors, pick in ways:
            best = {one: 1000 * pick(pairs) for one, pairs in measure(commands(program, peer, settings), runs, processors).items()}
            row = f"{name:9}{nodes:>8}{way:>5}{best['scisim']:>9.1f}"
            if peer:
                row += f"{best['lean']:>9.1f}{best['mutex']:>9.1f}{best['scisim'] / best['lean']:>15.2f}{best['scisim'] / best['mutex']:>16.2f}"
            print(row, flush=True)
    measure_reading(folder, program, peer, runs, {min(everywhere)})
    measure_calls(folder, program, peer)
