"""Says a script's commands to `scisim talk` one by one, and prints what each prints: talk.py PROGRAM SCRIPT

A script is bytes: only a line feed ends a line, and a comment may hold any byte. It ends with 1 at a refusal, or where a pipe is closed."""

import subprocess
import sys


def say(scisim, command):
    """The lines that a command prints, and the number of its refusal, or None."""
    scisim.stdin.write(command.removesuffix(b"\n") + b"\n")
    scisim.stdin.flush()
    printed = []
    for line in scisim.stdout:
        match line.split():
            case [b"ok"]:
                return printed, None
            case [b"refused", number]:
                return printed, int(number)
        printed.append(line)
    raise BrokenPipeError


def main(program, script):
    with open(script, "rb") as commands, open(1, "wb") as out:
        scisim = subprocess.Popen([program, "talk"], stdin=subprocess.PIPE, stdout=subprocess.PIPE)
        for command in commands:
            printed, refused = say(scisim, command)
            out.writelines(printed)
            out.flush()
            if refused:
                sys.exit(f"refused {refused}: {command.decode(errors='backslashreplace')}")


if __name__ == "__main__":
    try:
        main(*sys.argv[1:])
    except BrokenPipeError:
        sys.exit("talk: no answer, or nobody reads on")
    except OSError as fault:
        sys.exit(f"talk: {fault}")
