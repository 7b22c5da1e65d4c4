"""Runs of the program under which a call of the system fails, and what the files have to hold behind them."""
from __future__ import annotations

import random
import subprocess
import time
from collections.abc import Callable, Iterable, Iterator
from dataclasses import dataclass

from support.chance import chosen
from support.failing import Failing, Fault, faults_of
from support.judge import Judge, after, copy_index, kept_lines, seen_by_sqlite
from support.running import kill_after, run


@dataclass
class FaultRuns:
    """The program, what makes it fail, the judge of what has to be there, and a folder with the database that is
    tried. Each look is told to `looked`. No fault is tried after `until`."""
    program: str
    failing: Failing
    judge: Judge
    folder: str
    chance: random.Random
    looked: Callable[..., None]
    until: float = float("inf")

    @property
    def under(self) -> str:
        return f"{self.folder}/tried"

    @property
    def path(self) -> str:
        return f"{self.under}/index.db"

    def begin(self, first: str) -> str:
        """The database as it was first, or none."""
        return copy_index(first, self.path)

    def calls(self, kind: str, *words: str, given: bytes = b"", first: str = "") -> int:
        """How many calls of a kind a run on these words makes if none fails."""
        self.begin(first)
        ended = run(self.program, *words, given=given, setting=self.failing.setting(self.under))
        self.looked(ended.returncode == 0, "without a fault", ended)
        return self.failing.counted()[kind]

    def some(self, kind: str, calls: int, count: int) -> list[Fault]:
        """So many of the faults of a run that makes these calls."""
        found = chosen(self.chance, faults_of(kind, calls), count)
        self.looked(found, f"the run makes no call {kind}")
        return found

    def each(self, faults: Iterable[Fault]) -> Iterator[Fault]:
        """Each fault. At least one in two has to be met."""
        met = tried = 0
        for fault in faults:
            if time.monotonic() > self.until:
                break
            yield fault
            tried += 1
            met += self.failing.counted()["failed"] > 0
        self.looked(2 * met >= tried > 0, f"{met} of {tried} faults were met")

    def run(self, fault: Fault, *words: str, given: bytes = b"") -> subprocess.CompletedProcess[bytes]:
        return run(self.program, *words, given=given, setting=self.failing.setting(self.under, fault))

    def is_checked(self, *what: object) -> None:
        """The database is opened, and its charges are right."""
        checked = run(self.program, "check", "--db", self.path)
        self.looked((checked.returncode, checked.stdout, checked.stderr) == (0, b"0\n", b""), "check", *what, checked)

    def is_kept(self, lines: tuple[bytes, ...], answers: tuple[bytes, ...], *what: object) -> None:
        """What the files hold now is what these answers promise. The call that was stopped is asked again."""
        self.is_checked(*what)
        is_whole, rows = seen_by_sqlite(self.path)
        made = after(self.judge, lines, answers, rows)
        self.looked(is_whole and made is not None, "the rows", *what, is_whole, answers, rows)
        again = (*kept_lines(lines, answers)[1], lines[-1])[0]
        asked = run(self.program, "apply", "--db", self.path, given=again)
        wanted = self.judge.answers(made + (again,))[-1] + b"\n"
        self.looked((asked.returncode, asked.stdout) == (0, wanted), "asked again", *what, again, wanted, asked)

    def ended_well(self, fault: Fault, ended: subprocess.CompletedProcess[bytes], is_whole: bool) -> bool:
        """Whether the run ended by itself with all done, or with Store and the answers so far."""
        if ended.returncode == 0:
            return is_whole and not ended.stderr
        return ended.returncode == 1 and fault.may_be_told(ended.stderr, self.path)

    def killed_after(self, lines: tuple[bytes, ...]) -> str:
        """A database with these lines in its log, as it stands where its program is killed; or a new one if there are
        none."""
        path = copy_index(self.judge.new, f"{self.folder}/first.db")
        return kill_after(self.program, path, lines) if lines else path
