"""Runs a program on a text, within a limit of time; and what it says where it refuses one."""
import os
import signal
import tempfile

# How many bytes a text may have, but for talks, histories and logs, and how many seconds it may take.
LIMIT, SECONDS = 1_048_576, 10


def refused(rest):
    """The status and both outputs of a refusal."""
    return 1, b"", f"scisim: refused {rest}\n".encode()


class Program:
    """A program, whose three streams are files of this process."""

    def __init__(self, path):
        self.path = path
        self.files = [tempfile.TemporaryFile() for _ in range(3)]
        self.streams = [it.fileno() for it in self.files]
        self.begun = None
        signal.signal(signal.SIGALRM, lambda *_: os.kill(self.begun, signal.SIGKILL))

    def run(self, text, *words):
        """The status, below 0 where a signal ended it, and what stands in both outputs."""
        given, *written = self.streams
        for stream in self.streams:
            os.ftruncate(stream, 0)
            os.lseek(stream, 0, os.SEEK_SET)
        os.pwrite(given, text, 0)
        actions = [(os.POSIX_SPAWN_DUP2, stream, number) for number, stream in enumerate(self.streams)]
        self.begun = os.posix_spawn(self.path, [self.path, *words], {}, file_actions=actions)
        signal.alarm(SECONDS)
        status = os.waitpid(self.begun, 0)[1]
        signal.alarm(0)
        return os.waitstatus_to_exitcode(status), *(os.pread(it, os.fstat(it).st_size, 0) for it in written)
