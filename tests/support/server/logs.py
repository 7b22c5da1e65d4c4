"""Databases with a log, each a copy of one that a killed program left, and the same with a flipped bit."""
from __future__ import annotations

import os
import random
import subprocess

from support.judge import copy_index
from support.places import BIN
from support.running import kill_after, run_command
from support.serving import make_index

CLAIMS = 40
# of a log: its header, the head of each frame, a page, and where the gate is in the head
HEAD, FRONT, PAGE, GATE = 32, 24, 4096, 8


def claim(number: int) -> bytes:
    return b'{"at":1,"token":"office","do":"claim","name":"name%d"}\n' % number


class Logs:
    """`whole` is a database with a log of 40 claims. Copies stand in folders of their own."""

    def __init__(self, program: str, folder: str):
        self.program, self.folder, self.copies = program, folder, 0
        self.whole = kill_after(program, make_index(program, f"{folder}/whole.db"),
                                [claim(number) for number in range(CLAIMS)])

    def copy(self, flipped: int | None = None) -> str:
        """The path of a copy, with this bit of its log flipped."""
        self.copies += 1
        folder = f"{self.folder}/{self.copies}"
        os.mkdir(folder)
        copy_index(self.whole, f"{folder}/index.db")
        if flipped is not None:
            flip(f"{folder}/index.db-wal", flipped)
        return f"{folder}/index.db"

    def bits(self, count: int, chance: random.Random) -> list[int]:
        """Some bits of the log, but none of the bytes by which index-log decides."""
        length = 8 * os.path.getsize(f"{self.whole}-wal")
        found: list[int] = []
        while len(found) < count:
            bit = chance.randrange(length)
            if bit >= 8 and (bit // 8 - HEAD) % (FRONT + PAGE) != GATE:
                found.append(bit)
        return found

    def damaged_bit(self) -> int:
        """A bit in the middle of the log, where a commit begins that is followed by others."""
        frames = (os.path.getsize(f"{self.whole}-wal") - HEAD) // (FRONT + PAGE)
        return 8 * (HEAD + frames // 2 * (FRONT + PAGE) + FRONT + 100)

    def log(self, *words: str, shell: str = ":") -> subprocess.CompletedProcess:
        """The end of index-log, behind this line of a shell."""
        return run_command(["sh", "-c", f'{shell}; exec "$@"', "sh", f"{BIN}/index-log", *words], INDEX=self.program)

    def report(self, db: str) -> subprocess.CompletedProcess:
        """The end of a start of the program through index-log, which prints a line for each name."""
        return self.log(db, "--", self.program, "report", "--db", db)

    def names(self, db: str) -> int | None:
        """How many names the program finds there. Its opening changes the log."""
        ended = subprocess.run([self.program, "report", "--db", db], stdout=subprocess.PIPE, timeout=60)
        return ended.stdout.count(b"\n") if ended.returncode == 0 else None


def flip(path: str, bit: int) -> None:
    """Turns one bit of a file."""
    with open(path, "r+b") as file:
        file.seek(bit // 8)
        byte = file.read(1)[0]
        file.seek(bit // 8)
        file.write(bytes([byte ^ 1 << bit % 8]))


def bytes_of(*paths: str) -> list[bytes]:
    found = []
    for path in paths:
        with open(path, "rb") as file:
            found.append(file.read())
    return found
