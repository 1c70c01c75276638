"""What the system limits: the size of a file, streams that don't block, the stack. Each call of the program is tried under each."""

import functools
import hashlib
import os
import pathlib
import resource
import shutil
import signal
import subprocess

from calls import CALLS, INPUTS
from dumps import ITS_LISTS, LARGE_DUMP
from histories import LONG as LONG_HISTORY
from kinds import READ, WRITE
from logs import LONG as LONG_LOG
from runs import COUNT
from sizes import DUMP, ITS_NAMES, LARGEST, NAMED

HOME = pathlib.Path(__file__).resolve().parents[2]
# How many bytes a file may get: fewer than any answer has.
FILE = 5
# The least stack with which each call is tried, and the address space that has room for 64 such threads, and not for 64 usual ones.
STACK, ROOM = 98_304, 100_000_000
# Inputs that are large, or of many nodes, by calls.
LARGE = [
    *((name, NAMED) for name in ("script", "trace", "log", "page", "talk")),
    *(("script", script) for script, *_ in LARGEST),
    ("run", COUNT.replace("nodes = 4", "nodes = 64")),
    ("dump", LARGE_DUMP),
    ("dump", DUMP),
    ("history", LONG_HISTORY),
    ("followed", LONG_LOG),
]


def limited(limits):
    """What is done before the program starts: its limits are set, and the signal for a file that grows beyond is as the system has it."""
    signal.signal(signal.SIGXFSZ, signal.SIG_DFL)
    for what, most in limits:
        resource.setrlimit(what, (most, resource.getrlimit(what)[1]))


def ran(words, given, *limits, **how):
    """The status and both outputs of a run, in these limits."""
    before = functools.partial(limited, limits)
    streams = {"stdout": subprocess.PIPE, "stderr": subprocess.PIPE, **how}
    if "stdin" not in streams:
        streams["input"] = given.encode()
    it = subprocess.run(words, preexec_fn=before, timeout=120, check=False, **streams)
    return it.returncode, (it.stdout or b"").decode(), it.stderr.decode()


def launcher(program, room):
    """The script scisim, which takes the program for the one that was built from its sources, of which there are none."""
    home = pathlib.Path(room) / "launcher"
    built = home / "crates/sci_sim/out"
    built.mkdir(parents=True)
    shutil.copy(HOME / "scisim", home)
    shutil.copy(program, built / "sci_sim")
    (home / "crates.txt").write_text("sci_sim:\n", encoding="utf-8")
    sources = subprocess.run([home / "scisim", "--sources"], capture_output=True, text=True, check=True).stdout.strip()
    digest = hashlib.sha256(pathlib.Path(program).read_bytes()).hexdigest()
    (built / "made_from").write_text(f"scisim {sources} {digest}\n", encoding="utf-8")
    return home / "scisim"


def filed(program, words, given, room):
    """What a run ends with whose output is a file that may get few bytes, and what that then has."""
    name = pathlib.Path(room) / "filed"
    with open(name, "wb") as file:
        status, _, error = ran([program, *words], given, (resource.RLIMIT_FSIZE, FILE), stdout=file)
    return status, name.read_text(encoding="utf-8"), error


def blocked(program, words, given):
    """What a run ends with whose input has this front, and then nothing for now."""
    reader, writer = os.pipe()
    os.write(writer, given.encode())
    os.set_blocking(reader, False)
    try:
        return ran([program, *words], "", stdin=reader)
    finally:
        os.close(reader)
        os.close(writer)


def clogged(program, words, given, room):
    """What a run ends with whose output is a pipe that has this much room and nobody reads, and what it wrote there."""
    reader, writer = os.pipe()
    os.set_blocking(writer, False)
    filler = b" " * 65_536
    filled = 0
    try:
        while True:
            filled += os.write(writer, filler)
    except BlockingIOError:
        pass
    filled -= len(os.read(reader, room))
    try:
        status, _, error = ran([program, *words], given, stdout=writer)
        return status, os.read(reader, 1 << 20)[filled:].decode(), error
    finally:
        os.close(reader)
        os.close(writer)


def sized(program, launched, room):
    """Answers that a file has no room for: the launcher's program says so, and the one that is started by itself ends by the signal."""
    for name, words in CALLS.items():
        answer = ran([program, *words.split()], INPUTS[name])[1]
        status, text, error = filed(launched, words.split(), INPUTS[name], room)
        is_told = (status, error) == (1, WRITE) and answer.startswith(text)
        yield ["launched", name], INPUTS[name], [] if is_told else [f"with a file of {FILE} bytes: {status}, {text!r}, {error!r}"]
    found = filed(program, ["script"], INPUTS["script"], room)[::2]
    yield ["script"], INPUTS["script"], [] if found == (-signal.SIGXFSZ, "") else [f"with a file of {FILE} bytes it ended with {found}"]


def unblocking(program):
    """Streams that don't block, at each call."""
    for name, words in CALLS.items():
        answer = ran([program, *words.split()], INPUTS[name])[1]
        front = INPUTS[name][: INPUTS[name].index("\n") + 1]
        for given in ("", front):
            status, text, error = blocked(program, words.split(), given)
            is_told = (status, error) == (1, READ) and text == ("ok\n" if given and name == "talk" else "")
            yield [name, "blocked"], given, [] if is_told else [f"where no more is there: {status}, {text!r}, {error!r}"]
        for room in (0, 4096):
            status, text, error = clogged(program, words.split(), INPUTS[name], room)
            # what there is room for may be all
            is_whole = room and (status, text, error) == ran([program, *words.split()], INPUTS[name])
            is_told = (status, error) == (1, WRITE) and answer.startswith(text)
            found = f"with a pipe's room of {room}: {status}, {text[-80:]!r}, {error!r}"
            yield [name, "clogged"], INPUTS[name], [] if is_whole or is_told else [found]


def stacked(program):
    """Answers by as little stack as each call is tried with, and those by the usual one."""
    for name, given in [*INPUTS.items(), *LARGE]:
        words = [program, *CALLS[name].split()]
        found, wanted = ran(words, given, (resource.RLIMIT_STACK, STACK)), ran(words, given)
        is_same = found == wanted and found[0] in (0, 1)
        yield [name, "stacked"], given, [] if is_same else [f"with a stack of {STACK} bytes: {found[0]}, {found[2]!r}"]
    # so a thread has no more than that
    given = COUNT.replace("nodes = 4", "nodes = 64")
    found = ran([program, "run"], given, (resource.RLIMIT_STACK, STACK), (resource.RLIMIT_AS, ROOM))
    yield ["run", "stacked"], given, [] if found == (0, "count 64000\n", "") else [f"64 threads of {STACK} bytes in {ROOM}: {found}"]
    for option in ("--help", "--version"):
        found, wanted = ran([program, option], "", (resource.RLIMIT_STACK, STACK)), ran([program, option], "")
        yield [option, "stacked"], "", [] if found == wanted else [f"with a stack of {STACK} bytes: {found[0]}, {found[2]!r}"]


def faults(program, room):
    """All that is tried, and what is wrong with it."""
    yield from sized(program, launcher(program, room), room)
    yield from unblocking(program)
    yield from stacked(program)
