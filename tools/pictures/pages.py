"""The pages that the program draws, and the browser that opens them."""

import pathlib
import re
import subprocess

ROOT = pathlib.Path(__file__).resolve().parents[2]
EXAMPLES = ROOT / "examples"
# The comment in front of a script, to the end of a line where a sentence ends.
COMMENT = re.compile(r"(?:#.*\n)*?#.*[.!?]\n|(?:#.*\n)*")


def title_of(script):
    """Returns the title that a page of a script has: its comment in one line. A browser shows no NUL, but a sign in its place."""
    return " ".join(COMMENT.match(script)[0].replace("#", "").replace("\0", "\ufffd").split())


def page_of(program, name):
    """Returns the page of an example."""
    words = [program, "trace", "--page", str(EXAMPLES / f"{name}.txt")]
    return subprocess.run(words, check=True, stdout=subprocess.PIPE).stdout.decode()


def page_of_race(program, name):
    """Returns the page of the states of an example's open calls."""
    return page_of_text(program, (EXAMPLES / f"{name}.race").read_text(encoding="utf-8"), "outcomes")


def page_of_text(program, text, command="trace"):
    """Returns the page that a command makes of a script."""
    return subprocess.run([program, command, "--page"], check=True, input=text.encode(), stdout=subprocess.PIPE).stdout.decode()


def browse(browser, room, words):
    """Runs the browser, and returns what it wrote to its standard output and error."""
    front = [browser, "--headless", "--no-sandbox", "--disable-gpu", "--disable-ipc-flooding-protection", "--hide-scrollbars", "--window-size=1280,900", f"--user-data-dir={room}/browser"]
    done = subprocess.run([*front, *words], check=True, stdout=subprocess.PIPE, stderr=subprocess.PIPE, timeout=300)
    return done.stdout.decode(), done.stderr.decode(errors="replace")
