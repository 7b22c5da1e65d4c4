"""Runs of the program on a recording disk, and what a power cut may leave of each."""
from __future__ import annotations

import bisect
import os
import random
import shutil
import subprocess
from collections.abc import Callable, Iterator
from contextlib import AbstractContextManager, suppress
from dataclasses import dataclass

from support.disk.mounted import Mounted, WritesEarly
from support.disk.recording import Entry, Flush, Write
from support.judge import Judge, copy_index, rows_of
from support.old_version import make_old_version
from support.programs import program_of
from support.running import run
from support.serving import OFFICE, Index, make_index, reply_to
from support.workload import REQUESTS, lines_of, message_of, of_name, upload

SECTOR = 512
# of xfs, ext4 and btrfs
SUPERBLOCKS = 0, 1_024, 65_536
Rows = dict
Mark = Callable[[], None]


def nothing_beside(path: str, answered: int) -> str:
    """Of a run that has no other files than the index."""
    return ""


@dataclass(frozen=True)
class Job:
    """A run of the program. `prepare` makes what it finds at a path, `drive` runs it there and calls its mark behind
    each answer. `states` are the rows of the index behind each number of answers, None if there is no index. `again`
    is what a person does after a power cut before the first answer; it returns what is wrong with that, or nothing.
    `room` are the MiB of disk that it wants, and `meanwhile` is what the kernel or another program writes. `beside`
    returns what is wrong with other files beside the index, after so many answers, or nothing."""
    name: str
    prepare: Callable[[str], object]
    drive: Callable[[str, Mark], None]
    states: list[Rows | None]
    again: Callable[[str], str] = lambda path: ""
    room: int = 0
    meanwhile: Callable[[str, random.Random], AbstractContextManager] = WritesEarly
    beside: Callable[[str, int], str] = nothing_beside


@dataclass(frozen=True)
class Record:
    """A job that ran: the disk before it, what was done to the disk, and how much of that each answer stands behind."""
    job: Job
    first: bytes
    entries: list[Entry]
    marks: list[int]

    def answered(self, place: int) -> int:
        """How many answers were given by a place."""
        return sum(mark <= place for mark in self.marks)

    def allowed(self, place: int) -> list[Rows | None]:
        """The rows that may be found if the power is cut at a place: those of the answers that were given by then, or
        these and the request that was in progress."""
        return self.job.states[self.answered(place):self.answered(place) + 2]


@dataclass(frozen=True)
class State:
    """What a power cut may leave at a place: each entry before `certain`, and of those behind it these writes."""
    place: int
    certain: int
    how: str
    writes: list[Write]


def recorded(job: Job, folder: str, file_system: str, options: str, chance: random.Random) -> Record:
    """Runs a job on a new file system, on which all that it finds has been written."""
    with Mounted(folder, file_system, options, job.room) as at:
        at.make()
        at.mount()
        path, marks = f"{at.folder}/index.db", []
        job.prepare(path)
        at.unmount()
        # a mount writes too: ext4 notes that its log has to be read again
        first, start = bytes(at.disk.content), at.disk.place()
        at.mount()
        with job.meanwhile(path, chance):
            job.drive(path, lambda: marks.append(at.disk.place()))
        places, entries = zip(*at.disk.entries(start))
        at.unmount()
    return Record(job, first, list(entries), [bisect.bisect_right(places, mark) for mark in marks])


def init_job(program: str, judge: Judge) -> Job:
    def drive(path: str, mark: Mark) -> None:
        ended = run(program, "init", "--db", path, *OFFICE)
        assert ended.stdout == b"created\n", ended
        mark()

    def again(path: str) -> str:
        ended = run(program, "init", "--db", path, *OFFICE)
        is_there = ended.stdout == b"created\n" or ended.stderr.startswith(b"index: NotEmpty\n")
        return "" if is_there else f"init again ended with {ended}"
    return Job("init", lambda path: None, drive, [None, judge.rows(())], again)


def apply_job(program: str, judge: Judge, **setting: str) -> Job:
    """All kinds of requests by `apply`. Each is sent when the one before it is answered."""
    lines = lines_of(REQUESTS)

    def drive(path: str, mark: Mark) -> None:
        with subprocess.Popen([program, "apply", "--db", path], stdin=subprocess.PIPE, stdout=subprocess.PIPE,
                              env={**os.environ, **setting}) as applying:
            assert applying.stdin and applying.stdout
            for line in lines:
                applying.stdin.write(line)
                applying.stdin.flush()
                assert applying.stdout.readline(), "apply ended"
                mark()
            applying.kill()
    states = [judge.rows(lines[:count]) for count in range(len(lines) + 1)]
    return Job("apply", lambda path: make_index(program, path), drive, states)


def migrate_job(program: str, folder: str) -> Job:
    """A database of version 1, which the first run of this version migrates."""
    def drive(path: str, mark: Mark) -> None:
        ended = run(program, "check", "--db", path)
        assert ended.stdout == b"0\n", ended
        mark()
    old, new = make_old_version(f"{folder}/old.db"), f"{folder}/migrated.db"
    copy_index(old, new)
    assert run(program, "check", "--db", new).stdout == b"0\n"
    return Job("migrate", lambda path: shutil.copy(old, path), drive, [rows_of(old), rows_of(new)])


def serve_job(program: str, folder: str) -> Job:
    """Uploads and deletes by `serve`, past the place where the log is copied into the file. The program is killed twice
    and started again."""
    messages = [message_of(request) for request in large_requests(40)]

    def drive(path: str, mark: Mark) -> None:
        for part in (messages[:20], messages[20:30], messages[30:]):
            with Index(program, path=path, at=7) as index:
                for message in part:
                    reply_to(index.port, message)
                    mark()
                index.process.kill()

    new = make_index(program, f"{folder}/new.db")
    plain, states = copy_index(new, f"{folder}/plain.db"), [rows_of(new)]
    drive(plain, lambda: states.append(rows_of(copy_index(plain, f"{folder}/seen.db"))))
    return Job("serve", lambda path: copy_index(new, path), drive, states)


def large_requests(count: int) -> list[tuple]:
    chance = random.Random(7)
    made = [of_name("office", "claim", "frob"), of_name("office", "set_quota", "frob", quota=1 << 30)]
    for at in range(count):
        size = chance.choice((1, 500, 5_000, 60_000, 300_000)) if at % 12 else 1_500_000
        made.append(upload("office", f"frob-1.{at}.tar.gz", chance.randbytes(size)))
        if at % 7 == 3:
            made.append(("office", {"do": "delete", "file": f"frob-1.{at}.tar.gz"}))
    return made


def states_of(record: Record, chance: random.Random, flushes: bool) -> Iterator[State]:
    """The states that a power cut may leave, place by place. Without `flushes` the disk keeps no promise of a flush."""
    certain, later = 0, []
    for place, entry in enumerate(record.entries, 1):
        if isinstance(entry, Write):
            later.append(entry)
        elif flushes:
            certain, later = place, []
        yield State(place, certain, "kept", list(later))
        if isinstance(entry, Write):
            yield State(place, certain, "lost", [])
            yield State(place, certain, "some", [write for write in later if chance.random() < 0.5])
            yield State(place, certain, "torn", torn(later, chance))


def torn(writes: list[Write], chance: random.Random) -> list[Write]:
    """Of each write some sectors, and of a superblock all or nothing."""
    made = []
    for write in writes:
        step = len(write.data) if is_superblock(write) else SECTOR
        made += [Write(write.at + start, write.data[start:start + step]) for start in range(0, len(write.data), step)
                 if chance.random() < 0.5]
    return made


def is_superblock(write: Write) -> bool:
    """Whether this is a file system's first superblock: the kernel mounts none that is torn, whoever wrote files."""
    return any(write.at <= place < write.at + len(write.data) for place in SUPERBLOCKS)


@dataclass
class Tried:
    """How many states were tried, of how many, and what was wrong with some."""
    count: int
    of: int
    wrong: list[str]


def try_states(program: str, record: Record, folder: str, file_system: str, most: int, chance: random.Random,
               flushes: bool = True) -> Tried:
    """Lays `most` states of a record, spread over all of it, onto a disk, and opens the index there. Of other files
    each state right behind an answer is tried too: what was not flushed by then may be lost."""
    places = [it.place for it in states_of(record, random.Random(0), flushes)]
    number = len(places)
    chosen = set(chance.sample(range(number), min(most, number)))
    if record.job.beside is not nothing_beside:
        chosen |= {turn for turn, place in enumerate(places) if place in record.marks}
    wrong, done = [], 0
    with Mounted(folder, file_system, "noatime", record.job.room) as at:
        certain = bytearray(record.first)
        at.disk.content[:] = record.first
        for turn, state in enumerate(states_of(record, chance, flushes)):
            if turn not in chosen:
                continue
            for entry in record.entries[done:state.certain]:
                if not isinstance(entry, Flush):
                    at.disk.put(entry)
                    certain[entry.at:entry.at + len(entry.data)] = entry.data
            done, start = max(done, state.certain), at.disk.place()
            for write in state.writes:
                at.disk.put(write)
            found = fault_of(program, at, folder, record, state.place)
            # what the kernel wrote as it recovered is taken back too
            for _, entry in [*((0, write) for write in state.writes), *at.disk.entries(start)]:
                if not isinstance(entry, Flush):
                    at.disk.content[entry.at:entry.at + len(entry.data)] = certain[entry.at:entry.at + len(entry.data)]
            if found:
                wrong.append(f"place {state.place} of {len(record.entries)}, {state.how}: {found}")
        assert at.disk.content[:] == certain, "something was written that is not in the record"
    return Tried(len(chosen), number, wrong)


def fault_of(program: str, at: Mounted, folder: str, record: Record, place: int) -> str:
    """What is wrong with the index on a disk as it is after a power cut at a place, or nothing."""
    here, path = f"{at.folder}/index.db", f"{folder}/opened.db"
    for end in ("", "-wal"):
        with suppress(FileNotFoundError):
            os.remove(path + end)
    try:
        at.mount()
    except OSError as end:
        return f"the kernel does not mount it: {end}"
    try:
        answered = record.answered(place)
        found = record.job.beside(here, answered) or ("" if answered else record.job.again(here))
        copy_index(here, path)
    except OSError as end:
        return f"a file can't be read: {end}"
    finally:
        at.unmount()
    return found or fault_of_index(program, path, record.allowed(place))


def fault_of_index(program: str, path: str, allowed: list[Rows | None]) -> str:
    if not os.path.exists(path):
        return "the database is gone"
    if os.path.exists(f"{path}-wal"):
        with open(f"{path}-wal", "rb") as log:
            look = program_of("index-log").look_of(log.read())
        if look.is_damaged:
            return f"index-log: {look.text}"
    checked = run(program, "check", "--db", path)
    if (checked.returncode, checked.stdout, checked.stderr) != (0, b"0\n", b""):
        return f"check ended with {checked}"
    rows = rows_of(path)
    if rows in allowed:
        return ""
    sizes = [state and {table: len(kept) for table, kept in state.items()} for state in (rows, *allowed)]
    return f"other rows: {sizes[0]}, may be {sizes[1:]}"
