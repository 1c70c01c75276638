"""Settings: a second reader, over the standard library's of TOML, written from docs/FORMATS.md."""
import re
import tomllib

from chance import settings
from mutants import SPELLINGS, known, mutant
from running import LIMIT, refused

KNOWN = known("*.toml")
INTEGER = 2**63 - 1
NODES, CAPACITY, MANY = (1, 64), (1, 1024), (0, 1_000_000)
# Of each work the range of each number, and how many numbers its array has.
WORKS = {
    "stencil": ({"nodes": NODES, "capacity": CAPACITY, "phases": MANY}, {"cells": range(7, 3585, 7)}),
    "ring": ({"lines": (1, 1023), "capacity": CAPACITY}, {"items": range(100_001)}),
    "count": ({"nodes": NODES, "adds": MANY, "capacity": CAPACITY}, {}),
}
# How many values of all phases, items or additions a workload has that is run.
SMALL = 3000


def is_integer(value, low, high):
    """Whether a value of TOML is an integer in this range."""
    return type(value) is int and low <= value <= high


def read(text):
    """The settings, or None."""
    try:
        found = tomllib.loads(text.decode().removeprefix("\ufeff"))
    except (UnicodeDecodeError, tomllib.TOMLDecodeError, RecursionError):
        return None
    work = found.get("work")
    numbers, arrays = WORKS.get(work, ({}, {})) if isinstance(work, str) else ({}, {})
    is_right = (
        numbers
        and set(found) | {"dump"} == {"work", "dump", *numbers, *arrays}
        and type(found.get("dump", False)) is bool
        and all(is_integer(found[it], *between) for it, between in numbers.items())
        and all(isinstance(found[it], list) and len(found[it]) in counts for it, counts in arrays.items())
        and all(is_integer(value, 0, INTEGER) for it in arrays for value in found[it])
    )
    return found if is_right else None


def is_small(found):
    """Whether the workload is run here."""
    match found["work"]:
        case "count":
            return found["nodes"] * found["adds"] <= SMALL
        case "ring":
            return len(found["items"]) <= SMALL
    return len(found["cells"]) * found["phases"] <= SMALL


def with_number(by, text):
    """The text with another number."""
    place = by.choice(list(re.finditer(by.choice((rb"(?<== )\d+", rb"\d+")), text)))
    return text[: place.start()] + by.choice(SPELLINGS) + text[place.end() :]


def text(by):
    """Settings with another number, or a mutant of settings."""
    if by.random() < 0.01:
        opening, closing = by.choice(((b"[", b"]"), (b"{a=", b"}"), (b"a.", b"=1"), (b"'", b"'")))
        count = by.choice((2, 200, 100_000))
        return b"cells = " + opening * count + closing * by.choice((0, count))
    it = by.choice(KNOWN) if by.random() < 0.1 else settings(by)[0].encode()
    it = by.choice((b"", b"", b"\xef\xbb\xbf")) + it + by.choice((b"", b"dump = true\n", b"dump = false\n"))
    return with_number(by, it) if by.random() < 0.3 else mutant(by, it)


def wrong(run, text):
    """What is wrong with what `run` says of a text, or nothing; of a large workload nothing is asked."""
    found = read(text)
    if found and len(text) <= LIMIT and not is_small(found):
        return ""
    status, out, error = told = run("run")
    if len(text) > LIMIT or not found:
        wanted = refused("23" if len(text) > LIMIT else "22")
        return "" if told == wanted else f"{told}, and not {wanted}"
    return "" if (status, error) == (0, b"") and out else f"{told}, and no result"
