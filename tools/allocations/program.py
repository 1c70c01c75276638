"""The built program with one of its allocations refused, each in turn: it must answer 7, and what it printed must be a front.

Of each row of RUNS the program is run with its first allocation refused, then with its second, and so on until there is none left to
refuse; that run ends as the one with ample memory. Each other one says `scisim: refused 7` and ends with status 1, but where the call
makes up for it by a later growth, and ends as with ample memory: as often as the row says. Where threads are started, 26 may come too.
The histories are of runs whose nodes can't meet, so that they are always the same.
"""

import subprocess

SAID = b"an allocation was refused\n"
REFUSED = [b"scisim: refused 7\n"]
OR_NO_THREAD = [*REFUSED, b"scisim: refused 26\n"]

# Six nodes read a line, one of them leaves, and another writes: its turns purge the rest. A node that names one line puts it out.
SCRIPT = (
    "memory 6 2\ncapacity 1\nopen 1 4 1 2 3 4 5 6 7 8\n"
    + "".join(f"load {node} 1 {node}\ndone {node}\n" for node in range(6))
    + "list 1\nevict 2 1\nturn 2\ntag 1 2\ndone 2\nstore 0 1 0 9\ndone 0\nload 0 0 0\ndone 0\nresidents 0\nadd 1 1 7 1\nturn 1\nlist 1\n"
)
# A `done` that waits: one line stands for all its turns that wait.
WAITING = "memory 2 1\nload 0 0 0\nturn 0\nturn 0\nload 1 0 0\nturn 1\ndone 1\n"
DUMP = (
    "scidump 1 3 1\nline 0 0000000000000201 0 0 0 0 0 0 0 0 0\ntag 0 0 000000000001ff07 0 0 0 0 0 0 0 0 0\n"
    "tag 0 1 0000000000020007 0 0 0 0 0 0 0 0 0\ntag 0 2 0000000000ff0102 0 0 0 0 0 0 0 0 0\nend\n"
)
HISTORY = (
    "scihistory 1 2 1\nline 0 0 0 0 0 0 0 0 0 0\nclosed 0 1 7 0 0 0 0 0 0 0\npassed 0 0 0 0 0 0 0 0 0 0\n"
    "wrote 0 1 7 0 0 0 0 0 0 0 over 0 0 0 0 0 0 0 0\nread 1 1 7 0 0 0 0 0 0 0\nend\n"
)
LOG = (
    "memory 2 1\nopen 0 1 7 0 0 0 0 0 0 0\nnode 0 line 0 Queue(none) Done\nnode 0 line 0 PrependValid Done\n"
    "node 0 line 0 ReturnMemory Done\nnode 0 line 0 Settle Done 1 7 0 0 0 0 0 0 0\n"
)
STENCIL = 'work = "stencil"\nnodes = 2\ncapacity = 1\nphases = 2\ncells = [0, 0, 0, 1, 0, 0, 0, 0, 0, 0, 2, 0, 0, 0]\n'
RING = 'work = "ring"\nlines = 2\ncapacity = 1\nitems = [0, 3, 6]\n'
COUNT = 'work = "count"\nnodes = 1\nadds = 2\ncapacity = 1\ndump = true\n'


def nothing(said, whole):
    """A result is printed at its end."""
    return not said


def lines(said, whole):
    """The text of the first commands, or with the lines of the turns before."""
    return said != whole and whole.startswith(said) and (not said or said.endswith(b"\n"))


def page(said, whole):
    """No page, or one with a front of the trace."""
    front, begin, rest = whole.partition(b'<pre id="trace">\n')
    trace, end, behind = rest.partition(b"</pre>\n<script>")
    begins, ends = front + begin, end + behind
    if not said:
        return True
    is_page = said.startswith(begins) and said.endswith(ends) and len(said) >= len(begins) + len(ends)
    return is_page and lines(said[len(begins) : len(said) - len(ends)], trace)


# The arguments, the input, how often a growth is made up for, what may be told, and what may be printed before.
RUNS = [
    ("script", SCRIPT, 1, REFUSED, lines),
    ("trace", SCRIPT, 1, REFUSED, lines),
    ("trace --page", SCRIPT, 1, REFUSED, page),
    ("trace", WAITING, 1, REFUSED, lines),
    ("trace --page", WAITING, 1, REFUSED, page),
    ("trace --log", SCRIPT, 1, REFUSED, nothing),
    ("trace --log", WAITING, 1, REFUSED, nothing),
    ("check", DUMP, 1, REFUSED, nothing),
    ("check", DUMP.replace("ff0102", "ff0112"), 1, REFUSED, nothing),
    ("check", HISTORY, 1, REFUSED, nothing),
    ("check", HISTORY.replace("read 1 1 7", "read 1 1 8"), 1, REFUSED, nothing),
    ("check", LOG, 1, REFUSED, nothing),
    ("check", LOG.replace("Done 1 7", "Done 2 7"), 1, REFUSED, nothing),
    ("outcomes --most 100", "memory 1 1\nload 0 0 0\n", 1, REFUSED, nothing),
    ("outcomes --page --most 100", "memory 1 1\nload 0 0 0\n", 1, REFUSED, nothing),
    ("run", COUNT, 1, OR_NO_THREAD, nothing),
    ("run", STENCIL, 1, OR_NO_THREAD, nothing),
    ("run", RING, 1, OR_NO_THREAD, nothing),
    ("run --progress", COUNT, 1, OR_NO_THREAD, nothing),
    ("run --history", COUNT, 1, OR_NO_THREAD, nothing),
    ("run --history", STENCIL.replace("nodes = 2", "nodes = 1"), 1, OR_NO_THREAD, nothing),
    ("run --history", RING.replace("0, 3, 6", ""), 1, OR_NO_THREAD, nothing),
    ("--help", "", 1, REFUSED, nothing),
]


class Scisim:
    """The built program."""

    def __init__(self, path, refusing):
        self.path, self.refusing = path, refusing

    def run(self, command, text, refused):
        """The status, what was printed, what was told, and whether there was the allocation of this number, which was refused."""
        env = {"LD_PRELOAD": self.refusing, "REFUSED": str(refused)}
        ran = subprocess.run([self.path, *command.split()], input=text.encode(), capture_output=True, env=env, timeout=60)
        return ran.returncode, ran.stdout, ran.stderr.replace(SAID, b""), SAID in ran.stderr


def faults_of(scisim, row):
    """How many growths were refused, and what isn't as it must be."""
    command, text, made_up, told, is_front = row
    whole = scisim.run(command, text, 0)
    number, met, faults = 0, 0, []
    while number < 10_000:
        number += 1
        status, said, error, is_refused = scisim.run(command, text, number)
        is_same = (status, said, error) == whole[:3]
        if not is_refused:
            break
        met += is_same
        if not is_same and (status != 1 or error not in told or not is_front(said, whole[1])):
            faults.append(f"with growth {number} refused: status {status}, '{error.decode(errors='replace')}' behind {said[-80:]!r}")
    faults += [] if is_same else ["behind the last growth it does what it doesn't do with ample memory"]
    faults += [] if met == made_up else [f"{met} growths were made up for, and not {made_up}"]
    return number - 1, faults
