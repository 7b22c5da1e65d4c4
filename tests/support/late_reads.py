"""Reads of the database's file that fail behind its opening: under `serve`, which caches nothing here, in a look and in
a call; and in `report` and `check`."""
from __future__ import annotations

import random
import time
from dataclasses import dataclass

from support.chance import chosen
from support.failing import Fault
from support.fault_runs import FaultRuns
from support.faults_of_serve import look
from support.judge import PATIENCE, Judge, copy_index, seen_by_sqlite
from support.running import run
from support.serving import ACCEPTED, ALREADY, Index, parts_of, reply_to
from support.workload import LARGE, REQUESTS, STORE, lines_of, message_of, of_file, of_name, upload

MOMENT = 7
# a while, in milliseconds
A_WHILE = 100
# an index of two users and two names. One has more pages than are cached of a database, so that others are read again
MANY = tuple(upload("hello", f"spam-{at}.tar.gz", LARGE * 3) for at in range(350))
BEFORE = (*REQUESTS[:12], of_name("hello", "claim", "spam"), *MANY)
LOOKS = ("/simple/", "/simple/frob/", "/names/frob", "/files/frob/frob-1.0.tar.gz", "/files/frob/frob-1.1.tar.gz")
CALLS = (of_name("hello", "claim", "egg"), upload("abc", "frob-1.2.tar.gz", LARGE),
         of_name("abc", "unyank", "frob", release="1.1"), of_file("abc", "delete", "frob-1.1.tar.gz"))


@dataclass(frozen=True)
class Asked:
    """A request by its name, the message that asks it of `serve`, and the lines whose effect it has."""
    name: str
    message: bytes
    lines: tuple[bytes, ...] = ()

    def __str__(self) -> str:
        return self.name


JOBS = "report", "check"
ALL = (*(Asked(f"GET {path}", look(path)) for path in LOOKS),
       *(Asked(call[1]["do"], message_of(call), lines_of((call,), MOMENT)) for call in CALLS))


def index_with_many(program: str, judge: Judge, path: str) -> str:
    """An index with what was asked before, in this file."""
    copy_index(judge.new, path)
    asked = run(program, "apply", "--db", path, given=b"".join(lines_of(BEFORE, MOMENT)), patience=PATIENCE)
    answers = set(asked.stdout.splitlines())
    assert asked.returncode == 0 and answers == {ACCEPTED, ALREADY}, answers
    return path


def faults_at(chance: random.Random, places: range, count: int) -> list[Fault]:
    """So many of these reads, which fail once; as many that fail for a while; and as many that fail for good."""
    return [Fault("pread", at, "EIO", is_lasting, milliseconds)
            for is_lasting, milliseconds in ((False, 0), (False, A_WHILE), (True, 0))
            for at in chosen(chance, places, count)]


class LateReads:
    """One message, which is sent twice to a server, and the lines whose effect it has."""

    def __init__(self, runs: FaultRuns, first: str, asked: Asked) -> None:
        self.runs, self.first, self.message = runs, first, asked.message
        self.lines = lines_of(BEFORE, MOMENT) + asked.lines

    def served(self, fault: Fault | None = None) -> tuple[list[bytes], int, bytes, tuple[int, int]]:
        """What a new server replies to the message and to the same message behind it, its status, what it says, and
        the reads that its opening and the first message make."""
        runs = self.runs
        runs.begin(self.first)
        with Index(runs.program, 2, runs.path, setting=runs.failing.setting(runs.under, fault), at=MOMENT,
                   keep=0) as index:
            opened = runs.failing.counted()["pread"]
            replies = [reply_to(index.port, self.message)]
            read = runs.failing.counted()["pread"]
            time.sleep(fault.milliseconds / 1_000 if fault else 0)
            try:
                replies.append(reply_to(index.port, self.message))
            except ConnectionRefusedError:
                replies.append(b"")
            return replies, index.process.wait(timeout=60), index.errors(), (opened, read)

    def all(self, count: int) -> None:
        looked = self.runs.looked
        right, status, said, (opened, read) = self.served()
        looked((status, said) == (0, b""), "without a fault", status, said)
        looked(read > opened, "it reads", opened, read)
        for fault in self.runs.each(faults_at(self.runs.chance, range(opened + 1, read + 1), count)):
            replies, status, said, _ = seen = self.served(fault)
            part = parts_of(replies[0])
            looked(part and (part[0], part[2]) == (500, STORE), "the reply", fault, seen)
            has_ended = status == 1 and replies[1] == b"" and fault.may_be_told(said, self.runs.path)
            goes_on = (status, said) == (0, b"")
            is_once = not fault.is_lasting and not fault.milliseconds
            looked(goes_on or has_ended and not is_once, "its end", fault, seen)
            is_made = goes_on and not fault.is_lasting
            wanted = right[0] if is_made else replies[0] if goes_on else b""
            looked(replies[1] == wanted, "the next", fault, seen, right)
            self.is_kept(fault, self.lines if is_made else lines_of(BEFORE, MOMENT))

    def is_kept(self, fault: Fault, lines: tuple[bytes, ...]) -> None:
        """The disk is well again: the rows are those of these lines."""
        self.runs.is_checked(fault)
        is_whole, rows = seen_by_sqlite(self.runs.path)
        self.runs.looked(is_whole and rows == self.runs.judge.rows(lines), "the rows", fault, rows)
