"""Histories, and what tools/histories says of them."""
from chance import change, line_of, text_of
from checker import verdict
from mutants import known, mutant
from running import refused

KNOWN = known("*.history", "*.kept")


def history(by):
    """A history by chance, mostly with a change."""
    nodes = by.choice((1, 2, 3, 4, 11))
    lines = [line_of(by, nodes) for _ in range(by.randint(1, 3))]
    if by.random() < 0.7:
        change(by, by.choice(lines))
    return text_of(nodes, lines).encode()


def text(by):
    """A history by chance, or a mutant of one."""
    it = by.choice(KNOWN) if by.random() < 0.1 else history(by)
    return it if by.random() < 0.4 else mutant(by, it)


def wrong(run, text):
    """What is wrong with what `check` says of a text, or nothing."""
    said = verdict(text.decode("latin-1"))
    wanted = refused(f"21 at line {said}") if isinstance(said, int) else (3 * ("breaks" in said), said.encode(), b"")
    told = run("check")
    return "" if told == wanted else f"{told}, and not {wanted}"
