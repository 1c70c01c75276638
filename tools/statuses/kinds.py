"""What a case of the tables may have in place of a plain text, and the texts that all tables share.

A case is: the arguments, what stands on standard input, the status, and what is wanted on standard output and on standard error.
"""

# What stands at a stream in place of text: a closed descriptor, a folder, a device that is full, a pipe that nobody reads.
CLOSED, FOLDER, FULL, UNREAD = object(), object(), object(), object()


class Begins(str):
    """The beginning of a text."""


class Traced(str):
    """A text, without the lines of turns that stand between its own."""


class Drawn(str):
    """A text, as a page has it, without the lines of turns; a script that is refused before its run has no page."""


class Page(Drawn):
    """The same of a run that ends, which has a page."""


class WholePage(str):
    """A text, as a page has it, with the lines of turns."""


class Lawful(str):
    """A first line, and behind it a dump that `check` calls lawful."""


class Legal(str):
    """The first line of a history that `check` calls legal."""


class Either(tuple):
    """Texts, one of which is wanted."""


class Little(str):
    """Standard input of a run that gets little memory: so many bytes of address space."""

    def __new__(cls, text="", memory=12_000_000):
        it = super().__new__(cls, text)
        it.memory = memory
        return it


class Crowded(Little):
    """Standard input of a run that has address space for the stacks of a few threads, of 8 MiB each, and not of 64."""

    def __new__(cls, text):
        return super().__new__(cls, text, 100_000_000)


class Broken(str):
    """Standard input whose next read fails behind this text."""


class Filled(str):
    """Standard output that has room for just this text, which it must then hold."""


# The texts of usage and help are the command-line crate's: there the beginning is wanted.
USAGE = Begins("error: ")
READ, WRITE = "scisim: cannot read\n", "scisim: cannot write\n"

# How many bytes an input may have, and an input of that many which is no script.
LIMIT = 1_048_576
AT_LIMIT = "#" + " " * (LIMIT - 1)


def refused(rest):
    return f"scisim: refused {rest}\n"
