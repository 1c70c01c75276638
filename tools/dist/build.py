"""Proves and builds the program, with crates that don't stand on each other side by side, over what earlier checks kept in out/."""

import os
import signal
import sys
import threading
import time

import made
from kit import RT
from turns import logic

# in seconds: from one line to the next at the most; a line of a crate that dist/seconds lacks
BETWEEN_LINES = 60
A_LINE = 0.3
# how many jobs at most prove one crate, as in the kit
JOBS = 4


def say(text):
    print(f"scisim: {text}", file=sys.stderr, flush=True)


def is_built(crate, jobs):
    """Proves and builds a crate by so many jobs, and returns whether that went well. A program has its name only once it is whole."""
    os.makedirs(f"{crate.folder}/out", exist_ok=True)
    flags, program = ["--jobs", str(jobs)], f"out/{crate.name}"
    with open(f"{crate.folder}/out/build.log", "w", encoding="utf-8") as crate.out:
        if not crate.is_program:
            return not crate.build_rlib(flags, anew=False)
        if crate.compile(flags, f"{program}.o") or crate.link(f"{program}.o", f"{program}.new"):
            return False
    os.replace(f"{crate.folder}/{program}.new", f"{crate.folder}/{program}")
    return True


class Watch:
    """Says which crates are at work, how many are left, and in about how many minutes all are proved."""

    def __init__(self, crates):
        lanes = os.environ.get("RT_JOBS", "")
        self.crates, self.lanes = crates, int(lanes) if lanes.isdecimal() else RT.processors()
        rows = (made.DIST / "seconds").read_text(encoding="utf-8").split()
        known = dict(zip(rows[::2], map(int, rows[1::2])))
        self.seconds = {it.name: known.get(it.name, A_LINE * it.count(rb"\n")) for it in crates}
        # by the crates' names: when the check began, and whether it went well
        self.begun, self.ended = {}, {}

    def minutes(self):
        """The minutes of the longest chain of crates that are left, or of all, shared by the processors."""
        now, left, chain = time.monotonic(), {}, {}
        for it in self.crates:
            rest = self.seconds[it.name] - now + self.begun.get(it.name, now)
            left[it.name] = 0 if it.name in self.ended else max(rest, 0)
            chain[it.name] = left[it.name] + max((chain.get(below.name, 0) for below in it.deps), default=0)
        return int(max(*chain.values(), sum(left.values()) / self.lanes) / 60) + 1

    def tell_end(self, name):
        count = f"{sum(self.ended.values())} of {len(self.crates)}"
        say(f"{name} is proved ({count})" if self.ended[name] else f"{name} is NOT proved: see crates/{name}/out/build.log")

    def go_on(self):
        last, said = [], 0
        while True:
            time.sleep(1)
            at_work = [it for it in [*self.begun] if it not in self.ended]
            if at_work and (at_work != last or time.monotonic() - said >= BETWEEN_LINES):
                last, said = at_work, time.monotonic()
                to_begin = len(self.crates) - len(self.begun)
                say(f"at work: {', '.join(at_work)}; to begin: {to_begin}; about {self.minutes()} min left")


def longest_chain(crates, seconds):
    """Returns the names of the crates, one upon another, that take longest until the last one is proved."""
    chains = {}
    for it in crates:
        below = [chains[dep.name] for dep in it.deps if dep.name in chains]
        chains[it.name] = [*max(below, key=lambda chain: sum(map(seconds.get, chain)), default=[]), it.name]
    return chains[crates[-1].name]


def hastened(crates, watch):
    """Returns the names of the crates to prove by several jobs: those of the longest chain, where the processors would else wait for it."""
    chain = longest_chain(crates, watch.seconds)
    waits = sum(map(watch.seconds.get, chain)) > sum(watch.seconds.values()) / watch.lanes
    return {*chain} if waits else set()


def build_all(crates):
    """Proves and builds these crates, lowest first, and returns whether all went well."""
    watch = Watch(crates)
    say(f"crates to prove and build: {len(crates)}; processors: {watch.lanes}; about {watch.minutes()} min")
    threading.Thread(target=watch.go_on, daemon=True).start()
    most, chain = min(JOBS, watch.lanes), hastened(crates, watch)

    def build(crate, given, jobs):
        if not all(given[it] for it in waits[crate.name]):
            return False
        watch.begun[crate.name] = time.monotonic()
        watch.ended[crate.name] = is_built(crate, most if crate.name in chain else jobs)
        watch.tell_end(crate.name)
        return watch.ended[crate.name]

    waits = {it.name: [(below.name, "proof") for below in it.below() if below in crates] for it in crates}
    calls = {it.name: lambda given, jobs, it=it: build(it, given, jobs) for it in crates}
    tasks = {(it.name, "proof"): (waits[it.name], watch.seconds[it.name], RT.need(it), calls[it.name]) for it in crates}
    return all(RT.in_lanes(tasks).values())


def lines_of(sources):
    """Returns the lines that say of which sources the program was built, and by which logic."""
    return [made.line_of("scisim", sources), f"logic {logic()}"]


def main():
    # (with its own handler, Python would wait for the threads)
    signal.signal(signal.SIGINT, signal.SIG_DFL)
    os.chdir(made.ROOT)
    RT.Crate.allowed = RT.handles_of(str(made.ROOT))
    program = next(it for it in RT.rtlib.crates_below(str(made.ROOT)) if it.name == "sci_sim")
    crates = [*program.below(), program]
    # (another build, or another rt, ends first, and this one says that it waits)
    RT.rtlib.lock(crates)
    sources = made.sources_of("sci_sim")
    if made.PROGRAM.is_file() and {*lines_of(sources)} <= {*made.read(made.OUT)}:
        say("the program is built already from the sources as they stand")
        return 0
    if not build_all([it for it in crates if it is program or not it.is_built()]):
        return 1
    if made.sources_of("sci_sim") != sources:
        say("the sources have changed meanwhile, and this program isn't of them: build again")
        return 1
    made.write(made.OUT, lines_of(sources))
    say("the program is built")
    return 0
