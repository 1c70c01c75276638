"""Threads: how many operations a second they make on the project's lines, beside std's locks and a lean Rust body."""

import os
import pathlib
import statistics
import subprocess

import programs

# the programs' word, threads, lines
SHAPES = [("one", 1, 1), ("two", 2, 1), ("four", 4, 1), ("apart", 4, 4)]
# what the ratios are to
BASES = {"adds": "mutex", "loads": "rwlock"}
PEERS = ["mutex", "rwlock", "words", "lock"]
# the share of a burst that its threads are to be on a processor, so that they truly meet
MET = 0.8
# operations of a thread in a burst, and bursts in a round
COUNTS = {"sci_coarse": 500, "sci_fine": 1000, "lock": 2000}
COUNT = 5000
BURSTS = 40


def used(command):
    """The nanoseconds that a program was on a processor."""
    process = subprocess.Popen(command)
    _, status, usage = os.wait4(process.pid, 0)
    process.returncode = status
    if status != 0:
        raise subprocess.CalledProcessError(status, command)
    return (usage.ru_utime + usage.ru_stime) * 1e9


def bursts_of(text):
    return [(float(nanos), float(share)) for nanos, share in (line.split() for line in text.splitlines())]


class Ways:
    """The programs by the name of what they measure."""

    def __init__(self, folder, kept, peer):
        self.own = {line: programs.build(kept, line) for line in programs.LINES}
        self.peer = peer
        self.pin = folder / "pin.so"
        source = pathlib.Path(__file__).with_name("pin.c")
        subprocess.run(["cc", "-O2", "-shared", "-fPIC", "-o", self.pin, source], check=True)

    def names(self):
        return [*self.own, *(PEERS if self.peer else [])]

    def bursts(self, name, work, shape, threads, count):
        if name not in self.own:
            command = [self.peer, name, work, shape, str(count), str(BURSTS)]
            return bursts_of(subprocess.run(command, stdout=subprocess.PIPE, text=True, check=True).stdout)
        command = [self.own[name], work, shape]
        if threads == 1:
            # no thread to meet: what a long run takes on its processor, less that of an empty one
            runs = [used([*command, str(100 * count)]) - used([*command, "0"]) for _ in range(3)]
            return [(nanos / 100, 1.0) for nanos in runs]
        environment = dict(os.environ, LD_PRELOAD=str(self.pin), WORKERS=str(threads))
        runs = (subprocess.run([*command, str(count)], env=environment, stderr=subprocess.PIPE, text=True, check=True)
                for _ in range(BURSTS))
        return bursts_of("".join(run.stderr for run in runs))

    def measure(self, name, work, shape, threads):
        """The median rate of a round's bursts that met, that of all, and how many met."""
        count = COUNTS.get(name, COUNT)
        rates = [(threads * count * 1e3 / nanos, share) for nanos, share in self.bursts(name, work, shape, threads, count)]
        met = [rate for rate, share in rates if share >= MET]
        return statistics.median(met) if met else None, statistics.median(rate for rate, _ in rates), len(met)


class Column:
    """The rounds of one way, in one shape."""

    def __init__(self, rounds):
        self.rounds = rounds
        self.met = sum(met for _, _, met in rounds)

    def rates(self, met):
        """A rate a round: of the bursts that met, or of all."""
        return [rate if met else every for rate, every, _ in self.rounds]

    def rate(self):
        return statistics.median(rate for rate in self.rates(self.met) if rate)

    def ratio(self, base):
        met = self.met and base.met
        ratios = [mine / its for mine, its in zip(self.rates(met), base.rates(met)) if mine and its]
        return statistics.median(ratios) if ratios else None


def number(ratio):
    return "-" if ratio is None else f"{ratio:.3f}"


def print_table(work, table, names):
    base = BASES[work]
    print(f"\n{work:11}" + "".join(f"{f'{threads} on {lines}':>24}" for _, threads, lines in SHAPES))
    print(f"{'':11}" + f"{'M/s    ratio    n':>24}" * len(SHAPES))
    for name in names:
        cells = []
        for shape, _, _ in SHAPES:
            column = table[name, shape]
            ratio = number(column.ratio(table[base, shape])) if (base, shape) in table else "-"
            cells.append(f"{column.rate():>10.2f}{' ' if column.met else '*'}{ratio:>8}{column.met:>5}")
        print(f"{name:11}" + "".join(cells), flush=True)
    four_to_one = ", ".join(f"{name} {number(table[name, 'four'].ratio(table[name, 'one']))}" for name in names)
    print(f"4 threads on a line : 1: {four_to_one}", flush=True)


def load():
    return " ".join(f"{load:.1f}" for load in os.getloadavg())


def measure_all(folder, kept, peer, rounds):
    """In each round each way in each shape, one after the other."""
    ways = Ways(folder, kept, peer)
    for work in BASES:
        print(f"\n{work}: load of the machine {load()} before", end="", flush=True)
        found = {}
        for _ in range(rounds):
            for shape, threads, _ in SHAPES:
                for name in ways.names():
                    found.setdefault((name, shape), []).append(ways.measure(name, work, shape, threads))
        print(f", {load()} after", flush=True)
        print_table(work, {key: Column(rows) for key, rows in found.items()}, ways.names())
