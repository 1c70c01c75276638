"""Runs the built program as its users do, and compares both streams and the status with the tables beside this file.

    python3 tools/statuses [PROGRAM]

PROGRAM is crates/sci_sim/out/sci_sim, or the one that is named. The last line is `statuses: N passed, M failed`, and the
status is 0 where none failed. kinds.py says what a case is, and shortages.py what is tried in little memory. wrong.py has cases that
must fail: each that does counts as passed.
"""

import html
import os
import pathlib
import resource
import shutil
import socket
import signal
import socket
import subprocess
import sys
import tempfile

HOME = pathlib.Path(__file__).resolve().parents[2]
sys.path.insert(0, str(HOME / "tools/statuses"))
sys.dont_write_bytecode = True

import caches
import commands
import cuts
import dumps
import histories
import limits
import logs
import outcomes
import reasons
import refusals
import runs
import scripts
import settings
import shortages
import sizes
import traces
import wrong as wrongs
from kinds import CLOSED, FOLDER, FULL, READ, UNREAD
from kinds import Begins, Broken, Crowded, Drawn, Either, Filled, Lawful, Legal, Little, Page, Traced, WholePage

PROGRAM = os.path.realpath(sys.argv[1] if sys.argv[1:] else HOME / "crates/sci_sim/out/sci_sim")
TABLES = [scripts, commands, reasons, caches, sizes, cuts, shortages, traces, dumps, histories, logs, outcomes, runs, settings]
# The files that lie where the program runs; `folder` is a folder.
FILES = scripts.FILES | dumps.FILES | histories.FILES | outcomes.FILES | runs.FILES
# How long a file may be that an output fills.
FILE = 4096
# How much stack a thread has, where there is room for few of them.
STACK = 8_388_608


def bytes_of(text):
    return text if isinstance(text, bytes) else text.encode()


def descriptor(number, text, room):
    """What a stream is opened as, where it is no closed one: a file with this text, or to take one, or what stands for it."""
    if text is FOLDER:
        return os.open(room, os.O_RDONLY)
    if text is FULL:
        return os.open("/dev/full", os.O_WRONLY)
    if text is UNREAD:
        reader, writer = os.pipe()
        os.close(reader)
        return writer
    if isinstance(text, Broken):
        # an end that is closed with something unread: behind what it had sent, a read fails
        reader, writer = socket.socketpair()
        reader.send(b"unread")
        writer.sendall(bytes_of(text))
        writer.close()
        return reader.detach()
    name = f"{room}/.{number}"
    with open(name, "wb") as file:
        file.write(bytes_of(text) if number == 0 and text is not CLOSED else b"")
    opened = os.open(name, os.O_RDWR)
    if isinstance(text, Filled):
        os.lseek(opened, FILE - len(bytes_of(text)), os.SEEK_SET)
    return opened


def run(arguments, streams, room):
    """The status, and what stands in both outputs."""
    opened = [descriptor(number, text, room) for number, text in enumerate(streams)]
    closed = [number for number, text in enumerate(streams) if text is CLOSED]

    def prepare():
        if isinstance(streams[0], Little):
            resource.setrlimit(resource.RLIMIT_AS, (streams[0].memory, streams[0].memory))
        if isinstance(streams[0], Crowded):
            resource.setrlimit(resource.RLIMIT_STACK, (STACK, resource.getrlimit(resource.RLIMIT_STACK)[1]))
        if isinstance(streams[1], Filled):
            resource.setrlimit(resource.RLIMIT_FSIZE, (FILE, FILE))
            # so a write behind the end fails, as on a full disk
            signal.signal(signal.SIGXFSZ, signal.SIG_IGN)
        for number in closed:
            os.close(number)

    how = dict(zip(("stdin", "stdout", "stderr"), opened))
    try:
        status = subprocess.run([PROGRAM, *arguments], cwd=room, preexec_fn=prepare, timeout=120, **how).returncode
    except subprocess.TimeoutExpired:
        status = "none within 120 seconds"
    finally:
        for it in opened:
            os.close(it)
    said = []
    for number in range(3):
        written = pathlib.Path(f"{room}/.{number}")
        if number:
            begun = FILE - len(bytes_of(streams[number])) if isinstance(streams[number], Filled) else 0
            said.append(written.read_bytes()[begun:].decode(errors="replace") if written.exists() else "")
        written.unlink(missing_ok=True)
    return status, said


def without_turns(trace):
    return "".join(line for line in trace.splitlines(keepends=True) if not line.startswith("# node "))


def drawn(page):
    """The text that a whole page shows, with the lines of turns, or None where it is no page."""
    front, _, text = page.partition('<pre id="trace">\n')
    text, _, end = text.partition("</pre>\n<script>")
    if not front.startswith("<!DOCTYPE html>\n") or not end.endswith("</script>\n</body>\n</html>\n"):
        return None
    return html.unescape(text)


def script_in(page):
    """The script that a page shows."""
    return html.unescape(page.partition('<pre id="script">\n')[2].partition("</pre>\n</details>\n")[0])


def is_wanted(said, wanted, room):
    match wanted:
        case WholePage():
            return drawn(said) == wanted
        case Drawn() if said or isinstance(wanted, Page):
            page = drawn(said)
            return page is not None and without_turns(page) == wanted
        case Traced():
            return without_turns(said) == wanted
        case Lawful():
            status, (verdict, _) = run(["check"], [said.removeprefix(wanted), "", ""], room)
            return said.startswith(wanted) and status == 0 and verdict.endswith("lawful\n")
        case Legal():
            status, (verdict, _) = run(["check"], [said, "", ""], room)
            return said.startswith(wanted) and (status, verdict) == (0, "legal\n")
        case Begins():
            return said.startswith(wanted)
        case Either():
            return said in wanted
        case str():
            return said == wanted
    return said == ""


def fails(case, room):
    """What is wrong with a case."""
    arguments, given, wanted, *texts = case
    status, said = run(arguments, [given, *texts], room)
    wrong = [] if status == wanted else [f"status {status}, and not {wanted}"]
    for name, it, text in zip(("standard output", "standard error"), said, texts, strict=True):
        if not is_wanted(it, text, room):
            wrong.append(f"{name}: {it[-200:]!r}")
    return wrong


def passes(case, room):
    """What is wrong where a case that is wrong isn't told."""
    return [] if fails(case, room) else [f"{case[2:]} was taken for what it does"]


# Commands that do the same with a script.
ALIKE = [["script"], ["trace"], ["trace", "--page"]]


def differs(script, room):
    """Where `trace`, as text and as a page, does with a script what `script` doesn't do."""
    (status, (text, error)), traced, paged = (run(it, [script, "", ""], room) for it in ALIKE)
    wrong = []
    if (traced[0], without_turns(traced[1][0]), traced[1][1]) != (status, text, error):
        wrong.append("trace does what script doesn't do")
    # a script that can't be read has no page
    page = None if status and not traced[1][0] and not paged[1][0] else drawn(paged[1][0])
    if (paged[0], page or "", paged[1][1]) != (status, traced[1][0], error):
        wrong.append("its page does what trace doesn't do")
    if page is not None and script_in(paged[1][0]) != script:
        wrong.append("the page shows another script")
    return wrong


def shortened(room):
    """The commands with an input each, and what is wrong with their answers in little memory, or of many in that of few."""

    def serve(command, given):
        status, (said, error) = run(command.split(), [given, "", ""], room)
        text = drawn(said) if command == "trace --page" and said else said
        return status, "no page" if text is None else text, error

    low = shortages.least(serve)
    served = [(it[0].split(), it[1], shortages.faults(serve, low, *it)) for it in shortages.SERVED]
    return [*served, (["talk"], shortages.ROUND, shortages.keeps(serve, shortages.FEW, shortages.MANY))]


def mixed(room):
    """What is wrong with the order of a talk's answers and reasons, which both go to one file."""
    with open(f"{room}/both", "w+b") as both:
        given = bytes_of(reasons.SAID)
        status = subprocess.run([PROGRAM, "talk", "--why"], input=given, stdout=both, stderr=both, cwd=room, timeout=120).returncode
        both.seek(0)
        said = both.read().decode()
    return [] if (status, said) == (0, reasons.MIXED) else [f"with both streams in one file it says {said!r}"]


# A name that is no text.
UNTOLD = b"\xff\xfe"


def odd_names(room):
    """What is wrong where the program's name, its folder, a variable or a file has a name that isn't UTF-8: only a file's may be told."""
    folder = bytes_of(f"{room}/") + UNTOLD
    os.mkdir(folder)
    program = folder + b"/" + UNTOLD
    os.symlink(PROGRAM, program)
    script = folder + b"/script"
    pathlib.Path(os.fsdecode(script)).write_bytes(b"memory 1 1\nlist 0\n")
    text = b"line 0 HOME\n"
    starts = [
        ([program, b"script"], {}, 0, text, b""),
        ([b"scisim", b"script"], {"executable": program, "env": {UNTOLD: UNTOLD}}, 0, text, b""),
        ([b"", b"script", b"script"], {"executable": program}, 0, text, b""),
        ([program, b"script", script], {}, 1, b"", bytes_of(READ)),
        ([program, b"script", b"--why", script], {}, 1, b"", bytes_of(READ + "an argument: not UTF-8\n")),
    ]
    for words, how, *wanted in starts:
        ran = subprocess.run(words, cwd=folder, input=b"memory 1 1\nlist 0\n", capture_output=True, timeout=120, **how)
        said = [ran.returncode, ran.stdout, ran.stderr]
        yield words, "", [] if said == wanted else [f"it ended with {said}"]


def help_words(room):
    """What is wrong with how many words all help has."""
    count = sum(len(run([*it, "--help"], ["", "", ""], room)[1][0].split()) for it in [[], *map(lambda it: [it], commands.NAMES)])
    return [] if count <= commands.WORDS else [f"all help has {count} words, and may have {commands.WORDS}"]


def at_terminal(room):
    """What is wrong with what is said of a faulty script and a missing file where standard error is a terminal: there the reason is said unasked."""
    for words, wanted in commands.AT_TERMINAL:
        said, theirs = os.openpty()
        ran = subprocess.run([PROGRAM, *words], stdin=subprocess.DEVNULL, stdout=subprocess.DEVNULL, stderr=theirs, cwd=room, timeout=120)
        os.close(theirs)
        found = ran.returncode, os.read(said, 4096).decode().replace("\r\n", "\n")
        os.close(said)
        yield words, "", [] if found == (1, wanted) else [f"at a terminal it ended with {found}"]


def ended_once(room):
    """What is wrong with how often a terminal that says nothing has to end."""
    for words in ["check"], ["check", "--large"], ["script"], ["talk"]:
        keys, theirs = os.openpty()
        os.write(keys, b"\x04")
        try:
            subprocess.run([PROGRAM, *words], stdin=theirs, stdout=subprocess.DEVNULL, stderr=subprocess.DEVNULL, cwd=room, timeout=20)
            yield words, "", []
        except subprocess.TimeoutExpired:
            yield words, "", ["it reads on behind the end of a terminal"]
        os.close(theirs)
        os.close(keys)


def kept_out(room):
    """What is wrong with what is said of a file that nobody may read, of a socket, and of an input that would block."""
    plug = socket.socket(socket.AF_UNIX)
    plug.bind(f"{room}/socket")
    shut = pathlib.Path(room) / "shut"
    shut.write_text("memory 1 1\n", encoding="utf-8")
    shut.chmod(0)
    reader, writer = os.pipe()
    os.set_blocking(reader, False)
    hand = {"user": 65534, "group": 65534, "extra_groups": []} if os.geteuid() == 0 else {}
    program = pathlib.Path(room) / "program"
    shutil.copy(PROGRAM, program)
    program.chmod(0o755)
    os.chmod(room, 0o755)
    reasons_of = [(["shut"], "shut: permission denied", hand), (["socket"], "socket: error 6 of the system", {}), ([], "standard input: it would block", {})]
    for words, why, how in reasons_of:
        ran = subprocess.run([program, "script", "--why", *words], stdin=reader, capture_output=True, text=True, cwd=room, timeout=120, **how)
        found = ran.returncode, ran.stdout, ran.stderr
        yield ["script", "--why", *words], "", [] if found == (1, "", READ + why + "\n") else [f"it ended with {found}"]
    os.close(reader)
    os.close(writer)
    plug.close()


def main():
    passed, failed = 0, 0
    cases = [it for table in [*TABLES, refusals] for it in table.CASES]
    with tempfile.TemporaryDirectory(prefix="statuses-") as room:
        os.mkdir(f"{room}/folder")
        for name, text in FILES.items():
            pathlib.Path(f"{room}/{name}").write_bytes(bytes_of(text))
        told = [(arguments, given, fails((arguments, given, *rest), room)) for arguments, given, *rest in cases]
        told += [(ALIKE, script, differs(script, room)) for script in scripts.ALIKE + traces.ALIKE]
        told += shortened(room)
        told += [(["talk", "--why"], reasons.SAID, mixed(room))]
        told += odd_names(room)
        told += [(["--help"], "", help_words(room)), *at_terminal(room), *ended_once(room), *kept_out(room)]
        told += [(arguments, given, passes((arguments, given, *rest), room)) for arguments, given, *rest in wrongs.CASES]
        told += wrongs.short()
        told += [*limits.faults(PROGRAM, room), *refusals.faults(cases)]
    for arguments, given, wrong in told:
        passed, failed = passed + (not wrong), failed + bool(wrong)
        for it in wrong:
            print(f"statuses: scisim {arguments} on {given[:80] if isinstance(given, (str, bytes)) else 'no text'!r}: {it}")
    print(f"statuses: {passed} passed, {failed} failed")
    return failed != 0


if __name__ == "__main__":
    sys.exit(main())
