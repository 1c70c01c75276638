"""Scripts: how many turns a second `scisim script` makes, beside a plain Rust simulator, and with small caches beside large ones;
and how many `scisim trace` makes beside it."""

import collections
import os
import random
import subprocess
import sys
import tempfile

MEBIBYTE = 1 << 20
# nodes, lines, bytes of the script
SETTINGS = [
    (8, 1, MEBIBYTE),
    (64, 1, MEBIBYTE),
    (8, 1024, MEBIBYTE),
    (64, 1024, MEBIBYTE // 4),
    (64, 1024, MEBIBYTE // 2),
    (64, 1024, MEBIBYTE),
]
# nodes, lines, bytes of the script, and the capacities that are compared; 1,024 is no bound
CAPACITIES = (64, 1024, MEBIBYTE, [1024, 4, 64])
# nodes, lines, bytes of the script that is traced
TRACES = [(8, 1, MEBIBYTE // 4), (64, 1, MEBIBYTE // 4), (8, 1024, MEBIBYTE // 4), (64, 1024, MEBIBYTE // 4)]
# where the output goes
OUTPUTS = {"null": subprocess.DEVNULL, "pipe": subprocess.PIPE}


class SharingList:
    """A line between two calls: its sharers from the head on, and whether the head is dirty."""

    def __init__(self):
        self.sharers = []
        self.dirty = False

    def enter(self, node):
        """Turns to become the head."""
        turns = 5 if self.sharers else 4
        self.sharers.insert(0, node)
        return turns

    def roll_out(self, node):
        """Turns of an entry behind the head to leave."""
        turns = 3 if self.sharers[-1] == node else 4
        self.sharers.remove(node)
        return turns

    def load(self, node):
        return 2 if node in self.sharers else self.enter(node)

    def write(self, node):
        turns = 0
        if node in self.sharers[1:]:
            turns += self.roll_out(node)
        if node not in self.sharers:
            # Where there is no list it enters dirty.
            self.dirty = self.dirty or not self.sharers
            turns += self.enter(node)
        turns += 1 if self.dirty else 3
        turns += 3 * (len(self.sharers) - 1) + 1
        self.sharers = [node]
        self.dirty = True
        return turns

    def evict(self, node):
        if node not in self.sharers:
            return 1
        if self.sharers[0] != node:
            return self.roll_out(node)
        if len(self.sharers) > 1:
            self.sharers.pop(0)
            return 4
        turns = 4 if self.dirty else 3
        self.sharers.pop()
        self.dirty = False
        return turns


class Cache:
    """The lines that a node names, the one used last behind."""

    def __init__(self, capacity):
        self.capacity = capacity
        self.named = collections.OrderedDict()

    def leave(self, line):
        self.named.pop(line, None)

    def use(self, line):
        """The line that this puts out."""
        self.named[line] = True
        self.named.move_to_end(line)
        return self.named.popitem(last=False)[0] if len(self.named) > self.capacity else None


def script_of(nodes, lines, size, each_turn, capacity=1024):
    """A script of at most so many bytes, its calls and its turns."""
    pick = random.Random(f"{nodes} {lines}")
    lists = [SharingList() for _ in range(lines)]
    caches = [Cache(capacity) for _ in range(nodes)]
    commands = [f"memory {nodes} {lines}\ncapacity {capacity}\n" if capacity < 1024 else f"memory {nodes} {lines}\n"]
    length, calls, turns = len(commands[0]), 0, 0
    while True:
        node, line, word = pick.randrange(nodes), pick.randrange(lines), pick.randrange(8)
        value = pick.randrange(1 << 32)
        kind = pick.choices(["load", "store", "add", "evict"], [5, 2, 2, 1])[0]
        sharers = lists[line]
        if kind == "load":
            begin, taken = f"load {node} {line} {word}\n", sharers.load
        elif kind == "evict":
            begin, taken = f"evict {node} {line}\n", sharers.evict
        else:
            begin, taken = f"{kind} {node} {line} {word} {value}\n", sharers.write
        victim = caches[node].leave(line) if kind == "evict" else caches[node].use(line)
        count = taken(node) + (0 if victim is None else lists[victim].evict(node))
        end = f"turn {node}\n" * count if each_turn else f"done {node}\n"
        length += len(begin) + len(end)
        if length > size:
            return "".join(commands), calls, turns
        commands += [begin, end]
        calls += 1
        turns += count


def check(program, script, calls):
    """The text that a program prints: one answer a call, and no wait."""
    printed = subprocess.run([program, "script", script], stdout=subprocess.PIPE, check=True).stdout
    if printed.count(b"\n") != calls or b" waits" in printed:
        sys.exit(f"{program}: {calls} calls were to end, without a wait")
    return printed


def seconds(program, script, output, command="script"):
    """The seconds that a whole run was on a processor."""
    process = subprocess.Popen([program, command, script], stdout=OUTPUTS[output])
    if process.stdout:
        with process.stdout as pipe:
            while os.read(pipe.fileno(), 1 << 16):
                pass
    _, process.returncode, used = os.wait4(process.pid, 0)
    return used.ru_utime + used.ru_stime


def measure(programs, setting, runs, each_turn):
    """Programs by name, the first beside the others, in turn."""
    nodes, lines, size = setting
    text, calls, turns = script_of(nodes, lines, size, each_turn)
    with tempfile.NamedTemporaryFile("w", suffix=".txt") as script:
        script.write(text)
        script.flush()
        printed = {check(program, script.name, calls) for program in programs.values()}
        if len(printed) != 1:
            sys.exit(f"{nodes} nodes, {lines} lines: the programs print different texts")
        for output in OUTPUTS:
            best = dict.fromkeys(programs, float("inf"))
            for _ in range(runs):
                for name, program in programs.items():
                    best[name] = min(best[name], seconds(program, script.name, output))
            first = next(iter(best.values()))
            cells = [f"{turns / taken / 1e6:8.2f} M/s {first / taken:6.2f}" for taken in best.values()]
            print(f"{nodes:5} {lines:5} {len(text):9} {turns:8} {output:>5}", *cells, flush=True)


def measure_capacities(program, runs, each_turn):
    """The same calls with each capacity, in turn: a ratio is to no bound."""
    nodes, lines, size, capacities = CAPACITIES
    print("nodes lines capacity     bytes    turns       scisim ratio", flush=True)
    with tempfile.TemporaryDirectory() as folder:
        scripts = {}
        for capacity in capacities:
            text, calls, turns = script_of(nodes, lines, size, each_turn, capacity)
            name = f"{folder}/{capacity}"
            with open(name, "w") as script:
                script.write(text)
            check(program, name, calls)
            scripts[capacity] = name, len(text), turns
        best = dict.fromkeys(scripts, float("inf"))
        for _ in range(runs):
            for capacity, (name, _, _) in scripts.items():
                best[capacity] = min(best[capacity], seconds(program, name, "null"))
        rates = {capacity: turns / best[capacity] / 1e6 for capacity, (_, _, turns) in scripts.items()}
        for capacity, (_, length, turns) in scripts.items():
            print(f"{nodes:5} {lines:5} {capacity:8} {length:9} {turns:8} {rates[capacity]:8.2f} M/s {rates[capacity] / rates[1024]:5.2f}", flush=True)


def check_trace(program, script, turns):
    """A trace has a line for each turn, and beside these the lines of the script's text."""
    traced = subprocess.run([program, "trace", script], stdout=subprocess.PIPE, check=True).stdout.splitlines(True)
    printed = subprocess.run([program, "script", script], stdout=subprocess.PIPE, check=True).stdout
    if b"".join(line for line in traced if not line.startswith(b"#")) != printed or len(traced) - printed.count(b"\n") != turns:
        sys.exit(f"{program}: a trace is to have a line for each of {turns} turns, and the text of the script")
    return sum(map(len, traced))


def measure_traces(program, runs):
    """The turns that `trace` makes beside those of `script`, in turn, where `done` takes them and where each is a command."""
    print("nodes lines by    turns    bytes of the trace       script        trace ratio", flush=True)
    for nodes, lines, size in TRACES:
        for each_turn in (False, True):
            text, _, turns = script_of(nodes, lines, size, each_turn)
            with tempfile.NamedTemporaryFile("w", suffix=".txt") as script:
                script.write(text)
                script.flush()
                length = check_trace(program, script.name, turns)
                best = dict.fromkeys(["script", "trace"], float("inf"))
                for _ in range(runs):
                    for command in best:
                        best[command] = min(best[command], seconds(program, script.name, "null", command))
            rates = [f"{turns / taken / 1e6:8.2f} M/s" for taken in best.values()]
            by = "turn" if each_turn else "done"
            print(f"{nodes:5} {lines:5} {by} {turns:7} {length:21}", *rates, f"{best['script'] / best['trace']:5.2f}", flush=True)


def measure_all(programs, runs, each_turn):
    head = "".join(f"{name:>13} ratio" for name in programs)
    print(f"nodes lines     bytes    turns    to{head}", flush=True)
    for setting in SETTINGS:
        measure(programs, setting, runs, each_turn)
    measure_capacities(programs["scisim"], runs, each_turn)
