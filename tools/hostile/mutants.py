"""Texts with a few changes by chance."""
import pathlib

EXAMPLES = pathlib.Path(__file__).resolve().parents[2] / "examples"
MOST = 2**64 - 1
BYTES = b"\0\t\n\r #-+.x09\x7f\x80\xc3\xff"
NUMBERS = [*range(10), 63, 64, 65, 255, 256, 1023, 1024, 1025, 65535, 65536, 2**32, 2**63 - 1, 2**63, MOST, MOST + 1]
# What is a number to some readers, or nearly one.
SPELLINGS = [b"%d" % it for it in NUMBERS] + [b"00", b"007", b"1" * 20, b"9" * 20, b"1" * 21, b"%020d" % 1, b"%021d" % 1, b"9" * 400]
SPELLINGS += [b"+1", b"-1", b"-0", b"0x1", b"1_0", b"1.0", b"1e0", b"x", "１".encode(), b"", b'""', b"none", b"true"]


def known(*patterns):
    """The texts of examples/ with such names."""
    return [it.read_bytes() for pattern in patterns for it in sorted(EXAMPLES.glob(pattern))]


def some(by, sequence):
    """A place in a sequence, its end among them where it is empty."""
    return by.randrange(max(1, len(sequence)))


def of_byte(by, text):
    """One byte flipped, other, gone, twice, or one more."""
    at = some(by, text)
    here = text[at : at + 1]
    flipped, new = bytes(it ^ 1 << by.randrange(8) for it in here), bytes([by.choice(BYTES)])
    return text[:at] + by.choice((flipped, new, b"", here * 2, here + new)) + text[at + 1 :]


def changed(by, parts, others):
    """The parts with one gone, twice, or another in its place; or with two exchanged."""
    at, there, other = some(by, parts), some(by, parts), by.choice(others)
    if by.random() < 0.2:
        parts[at], parts[there] = parts[there], parts[at]
    else:
        parts[at : at + 1] = by.choice(([], 2 * parts[at : at + 1], [other], [other], [parts[at], other]))
    return parts


def of_word(by, text):
    """One word another, a number, or that of another place."""
    lines = text.split(b"\n")
    at = some(by, lines)
    others = by.choice(SPELLINGS), by.choice(by.choice(lines).split(b" "))
    lines[at] = b" ".join(changed(by, lines[at].split(b" "), others))
    return b"\n".join(lines)


def of_line(by, text):
    """One line another, long, a comment, or blanks."""
    lines = text.split(b"\n")
    long = by.choice(lines) * by.choice((2, 300))
    return b"\n".join(changed(by, lines, (long, b"#" + by.randbytes(9), b" # 1", b"", b" ", b"\t ", b"\r")))


def of_blanks(by, text):
    """Other ends of lines, blanks, or nothing at the end."""
    at, end = some(by, text), text.find(b"\n", some(by, text))
    return by.choice((
        text.replace(b"\n", b"\r\n"),
        text[:end] + b"\r" + text[end:],
        text.replace(b" ", b"\t"),
        text.replace(b" ", b"  ", by.randrange(1, 9)),
        text[:end] + by.choice((b" ", b"\t", b"   ")) + text[end:],
        text.rstrip(b"\n") + by.choice((b"", b"\r", b"\n\n", b" ")),
        text[:at],
        text[at:],
    ))


def mutant(by, text):
    """The text with none to four changes; now and then another text altogether."""
    if by.random() < 0.01:
        return by.choice((b"", b"\n", by.randbytes(by.randrange(200)), text * 2, text + text.upper(), b" " * 5000, b"9" * 5000))
    for _ in range(by.choice((0, 1, 1, 1, 1, 2, 2, 3, 4))):
        text = by.choice((of_byte, of_word, of_word, of_line, of_blanks))(by, text)
    return text
