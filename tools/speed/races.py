"""Races: how long `scisim outcomes` takes over every order of their turns, beside a plain Rust search of the same states."""

import os
import pathlib
import shutil

import works

RACES = pathlib.Path(__file__).resolve().parents[2] / "examples"


def measure_all(program, peer, runs):
    print("\nevery order of turns; milliseconds of processor time, the best of the runs; million instructions", flush=True)
    print(f"{'race':20}{'states':>8}{'scisim':>9}{'plain':>9}{'ratio':>7}{'scisim':>9}{'plain':>9}{'ratio':>7}")
    one = {min(os.sched_getaffinity(0))}
    for race in sorted(RACES.glob("*.race")):
        commands = {"scisim": [program, "outcomes", race]} | ({"plain": [peer, "outcomes", race]} if peer else {})
        taken = works.measure(commands, runs, one)
        best = {name: 1000 * min(used for _, used in pairs) for name, pairs in taken.items()}
        counts = {name: works.instructions(command) / 1e6 for name, command in commands.items()} if shutil.which("valgrind") else {}
        states = works.run(commands["scisim"], one)[2].split()[1].decode()
        row = f"{race.stem:20}{states:>8}"
        for each, digits in ((best, 1), (counts, 2)):
            row += "".join(f"{count:>9.{digits}f}" for count in each.values())
            row += f"{each['scisim'] / each['plain']:>7.2f}" if len(each) == 2 else ""
        print(row, flush=True)
