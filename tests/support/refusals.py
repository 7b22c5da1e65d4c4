"""A program whose allocations are refused by the preloaded library refuse_allocation, and that is asked line by line,
or message by message."""
import mmap
import os
import select
import socket
import subprocess
import time
from contextlib import suppress

from support.serving import Index
from support.running import built

MOMENT, PATIENCE = 10, 60


class Refusals:
    """The library, and the numbers that it shares with a program that is started under it."""

    def __init__(self, folder):
        library, path = built("refuse_allocation", folder), f"{folder}/refusals"
        with open(path, "w+b") as kept:
            kept.write(bytes(24))
            kept.flush()
            self.numbers = memoryview(mmap.mmap(kept.fileno(), 24)).cast("Q")
        self.setting = {"LD_PRELOAD": library, "REFUSALS": path}

    def begin(self, number=0):
        """The allocation of this number is refused to the program that is started next, or none."""
        self.numbers[0], self.numbers[1], self.numbers[2] = 0, number, 0

    def refuse(self, number):
        """The allocation of this number from now on is refused to the program that runs, or none."""
        self.numbers[2] = 0
        self.numbers[1] = self.numbers[0] + number

    def was_refused(self):
        return self.numbers[2] > 0


def rests(process):
    """Waits until the program waits for what comes next, or is gone."""
    until = time.monotonic() + PATIENCE
    while process.poll() is None and time.monotonic() < until:
        with open(f"/proc/{process.pid}/stat") as kept:
            if kept.read().rpartition(")")[2].split()[0] == "S":
                return


class Lines:
    """A run of `apply` that is asked line by line."""

    def __init__(self, program, path, refusals):
        refusals.begin()
        words, pipe = [program, "apply", *(("--db", path) if path else ())], subprocess.PIPE
        self.process = subprocess.Popen(words, bufsize=0, stdin=pipe, stdout=pipe, stderr=pipe,
                                        env={**os.environ, **refusals.setting})

    def ask(self, line):
        """The answer, or nothing where the run ended."""
        with suppress(BrokenPipeError):
            self.process.stdin.write(line)
        answer = b""
        while not answer.endswith(b"\n"):
            ready, _, _ = select.select([self.process.stdout], [], [], PATIENCE)
            more = self.process.stdout.read(1 << 16) if ready else b""
            if not more:
                break
            answer += more
        return answer.rstrip(b"\n")

    def end(self):
        """How the run ends: its status, and what it said on standard error."""
        try:
            _, said = self.process.communicate(timeout=PATIENCE)
        except subprocess.TimeoutExpired:
            self.process.kill()
            _, said = self.process.communicate()
        return self.process.returncode, said


class Messages(Index):
    """A server that is asked message by message, and caches up to so many bytes."""

    def __init__(self, program, path, refusals, keep):
        refusals.begin()
        super().__init__(program, path=path, setting=refusals.setting, at=MOMENT)
        self.words += ["--keep-recent", str(keep)]
        self.said_before = 0

    def send(self, message):
        """The reply, and what the server says of it. A client whose message was not read is reset."""
        reply = b""
        with suppress(OSError), socket.create_connection(("127.0.0.1", self.port), timeout=PATIENCE) as peer:
            with suppress(OSError):
                peer.sendall(message)
                peer.shutdown(socket.SHUT_WR)
            while more := peer.recv(1 << 16):
                reply += more
        rests(self.process)
        said, before = self.errors(), self.said_before
        self.said_before = len(said)
        return reply, said[before:]
