"""Scripts by chance, and what the commands over scripts say of them."""
from mutants import MOST, known, mutant
from reader import ARGUMENTS, read
from running import LIMIT
from talks import heard

KNOWN = known("*.txt", "*.race")
STATES = "50"
# Of how many nodes times lines a race is searched: each state has a word of each.
SEARCHED = 128
# What is drawn of a node whose call is open, and of one that has none.
TURNS, CALLS = [b"turn", b"turn", b"done"], [b"load", b"store", b"add", b"evict"]
OTHERS = [b"# no command", *(it for it in ARGUMENTS if it not in (b"memory", b"capacity", b"open", *TURNS, *CALLS))]
TOO_MANY = 1, b"", f"scisim: too many states\nturns lead to more than {STATES} states\n".encode()


def script(by):
    """A small script by chance, whose calls are mostly ended."""
    nodes, lines = by.choice(((1, 1), (2, 1), (3, 2), (4, 3), (1024, 1), (2, 1024), (by.randint(1, 64), by.randint(1, 64))))
    rows, calls = [f"memory {nodes} {lines}"] + [f"capacity {by.choice((1, 2, 1024))}"] * by.randrange(2), {}
    rows += [f"open {by.randrange(lines)}" + 9 * f" {by.choice((0, 7, MOST - 1, MOST))}" for _ in range(by.choice((0, 0, 1, 2)))]
    for _ in range(by.randrange(20)):
        node = by.choice((0, nodes - 1, by.randrange(nodes)))
        numbers = {"node": node, "line": by.randrange(lines), "word": by.randrange(8), "value": by.choice((5, MOST))}
        name = by.choice(TURNS if calls.get(node) else CALLS if by.random() < 0.6 else OTHERS)
        calls = {} if name == b"end" else calls | {node: name in (b"turn", *CALLS)}
        rows.append(" ".join([name.decode(), *(str(numbers[it]) for it in ARGUMENTS.get(name, []))]))
    return "\n".join([*rows, ""]).encode()


def text(by):
    """A mutant of a script."""
    if by.random() < 0.001:
        at_limit = script(by).ljust(LIMIT + by.randrange(2))
        return by.choice((at_limit, script(by) + b" " * (LIMIT + by.randrange(2)) + by.choice((b"", b"\n", b"\r\n"))))
    return mutant(by, by.choice(KNOWN) if by.random() < 0.4 else script(by))


def is_right(command, is_page, told, wanted):
    """Whether a command says what is wanted of `script`; a trace has lines of turns too, the others print what they make of it."""
    status, out, error = told
    if command == "outcomes":
        return told == TOO_MANY and not wanted[0] or (status, error) == wanted[::2] and bool(out) != bool(status)
    if is_page:
        return (status, error) == wanted[::2] and out != b""
    return (status, b"".join(it for it in out.splitlines(keepends=True) if not it.startswith(b"# node ")), error) == wanted


def wrong(run, text):
    """What is wrong with what the commands say of a text, or nothing."""
    unread, place = read(text)
    said, stopped, printed = heard(run, text)
    fault = unread or stopped
    error = f"scisim: refused {fault.number} at line {fault.line}\n{fault.why}\n".encode() if fault else b""
    if len(text) > LIMIT:
        unread, error = True, b"scisim: refused 23\n"
    wanted = int(error != b""), b"" if unread else printed, error
    commands = [["script"], ["trace"], ["trace", "--page"]]
    if unread or place.nodes * place.lines <= SEARCHED:
        commands += [["outcomes", *it, "--most", STATES] for it in ([], ["--page"])]
    for command, *more in commands:
        told = run(command, "--why", *more)
        if not (told == wanted if unread else is_right(command, "--page" in more, told, wanted)):
            said = said or f"{command} {more}: {told}, and not {wanted}"
    return said
