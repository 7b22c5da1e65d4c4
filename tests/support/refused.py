"""What is asked of a program whose allocations are refused one after the other: lines, messages, and whole runs.

A running program is asked a line or a message while the first allocation that it makes for it is refused, then the
second, and so on, until all are made. If it went through all the same, and every so often if it did not, it is asked
again and the tables are looked at by others; the next program then begins from the tables before it."""
from __future__ import annotations

import itertools
import re
from contextlib import ExitStack
from dataclasses import dataclass, field
from typing import Callable

from support.judge import Judge, copy_index, rows_of, seen_by_sqlite
from support.places import TOP
from support.refusals import Lines, Messages, Refusals, rests
from support.running import run
from support.serving import JSON_PAGE, parts_of, sha256
from support.subcommands import End, end_of
from support.workload import lines_of

FAULT = b'{"answer":"fault","name":"OutOfMemory"}'
NO_MEMORY, CUT = b"index: OutOfMemory\n", b"index: connection: Cut\n"
NO_MEMORY_FOR_ONE = b"index: connection: OutOfMemory\n"
WHEEL = "/files/frob/frob-1.0%2Bx-py3-none-any.whl"
# so many bytes hold a page and a file, but no second page
KEPT_BYTES = 320


def transcript(file: str, *names: str) -> list[tuple[bytes, bytes]]:
    """The requests and the answers of these texts of index_request_tests, in which `<abc>` stands for the digest of
    `abc`."""
    with open(f"{TOP}/crates/index_request_tests/src/tests/{file}") as kept:
        texts = dict(re.findall(r'^const (\w+): &str = r#"\n(.*?)"#;', kept.read(), re.M | re.S))
    lines = [re.sub('"<(.*?)>"', lambda found: f'"{sha256(found[1].encode())}"', line)
             for name in names for line in texts[name].splitlines()]
    return [(line.encode() + b"\n", answer[2:].encode()) for line, answer in zip(lines[::2], lines[1::2])]


def stored_run() -> list[tuple[bytes, bytes]]:
    """The requests and the answers of the run that the gate makes of the program."""
    texts = []
    for name in ("stdin", "stdout"):
        with open(f"{TOP}/crates/index/{name}", "rb") as stored:
            texts.append(stored.read().splitlines())
    return [(line + b"\n", answer) for line, answer in zip(*texts)]


def users_and_frob() -> list[tuple[bytes, bytes]]:
    """Lines after which ann holds `frob`."""
    return transcript("transcripts.rt", "USERS", "FROB")


def all_lines() -> dict[str, list[tuple[bytes, bytes]]]:
    """By name lines and their answers: those of the stored run, of a full quota, of a case to its end, and of a
    wheel."""
    before = users_and_frob()
    file = {"file": "frob-1.0+x-py3-none-any.whl", "sha256": sha256(b"abc"), "hex": b"abc".hex(), "requires_python": ""}
    wheel, = lines_of([("abc", {"do": "upload", **file})], 11)
    return {
        "the stored run": stored_run(),
        "a full quota": before + transcript("transcripts/quotas.rt", "FULL"),
        "a case": before + transcript("transcripts.rt", "CASE") + transcript("transcripts/cases.rt", "QUIET"),
        "a wheel": before + [(wheel, b'{"answer":"accepted"}'), (wheel, b'{"answer":"already"}')],
    }


def look(path: str, **more: str) -> bytes:
    head = "".join(f"{name}: {value}\r\n" for name, value in more.items())
    return f"GET {path} HTTP/1.1\r\nHost: index\r\n{head}\r\n".encode()


def put(path: str, body: bytes, length: int) -> bytes:
    head = (f"PUT {path} HTTP/1.1\r\nX-Index-Token: abc\r\nX-Index-SHA256: {sha256(body)}\r\n"
            f"Content-Length: {length}\r\n\r\n")
    return head.encode() + body


def claim(name: bytes) -> bytes:
    body = b'{"do":"claim","name":"%s"}' % name
    return b"POST /requests HTTP/1.1\r\nX-Index-Token: abc\r\nContent-Length: %d\r\n\r\n" % len(body) + body


ROOT, PAGE, FILE = look("/simple/", Accept=JSON_PAGE), look("/simple/frob/", Accept=JSON_PAGE), look(WHEEL)
LOOKS = [ROOT, PAGE, FILE, look("/names/frob")]
# with the status of each reply: what is asked of an index in which ann holds `frob`
ASKED = [(look("/simple/Frob"), 301), (put("/files/frob/frob-1.0.tar.gz", b"abc", 4), 400),
         (put(WHEEL, b"abc", 3), 201),
         (put(WHEEL, b"abc", 3), 200), (FILE, 200), (ROOT, 200), (PAGE, 200), (look("/names/frob"), 200)]
# and if answers are cached, and let go since there is no room for them, or since a name was claimed
KEPT = [(put(WHEEL, b"abc", 3), 201), (PAGE, 200), (PAGE, 200), (FILE, 200), (FILE, 200), (PAGE, 200), (ROOT, 200),
        (PAGE, 200), (FILE, 200), (claim(b"egg"), 200), (PAGE, 200), (FILE, 200)]


@dataclass
class Refusing:
    """Refuses allocations of a program, and looks at what it does then. What is asked again is one in `step`."""
    program: str
    folder: str
    refusals: Refusals
    judge: Judge
    looked: Callable[..., None]
    step: int
    replies: dict = field(default_factory=dict)

    @property
    def path(self) -> str:
        return f"{self.folder}/refused.db"

    def each(self, rest, ask):
        """By number what comes of asking while the allocation of this number is refused, and last while none is."""
        for number in itertools.count(1):
            process = rest()
            rests(process)
            self.refusals.refuse(number)
            came = ask()
            is_refused = self.refusals.was_refused()
            self.refusals.refuse(0)
            yield number if is_refused else 0, came
            if not is_refused:
                self.looked(number > 1, "allocations were refused")
                return

    # lines

    def line(self, front: tuple[bytes, ...], line: bytes, answer: bytes, new: str | None) -> None:
        """Each allocation of a line behind these, on a copy of a new index, or in memory if none is given."""
        running: list[Lines] = []

        def rest():
            if not running:
                running.append(self.behind(front, new))
            return running[0].process

        for number, came in self.each(rest, lambda: running[0].ask(line)):
            if not number:
                self.looked(came == answer and running.pop().end() == (0, b""), "none refused", came, answer)
                break
            self.looked(came in (answer, FAULT, b""), f"allocation {number} refused", came, answer)
            if came != FAULT or number % self.step == 0:
                self.again(f"behind allocation {number}", running.pop(), front, line, came, new)

    def behind(self, front: tuple[bytes, ...], new: str | None) -> Lines:
        """A run behind these lines."""
        if new:
            copy_index(new, self.path)
        made = Lines(self.program, self.path if new else None, self.refusals)
        for line in front:
            made.ask(line)
        return made

    def again(self, name, running, front, line, came, new) -> None:
        """The line that was answered so is asked again, and gets the verdict by the tables, which are those of what was
        accepted."""
        made = front + (line,) if came not in (FAULT, b"") else front
        wanted = self.judge.answers(made + (line,))[-1]
        again = running.ask(line) if came else b""
        ended = running.end()
        self.looked(ended == ((0, b"") if came else (1, NO_MEMORY)), f"{name}: its end", ended)
        if new and not came:
            again = run(self.program, "apply", "--db", self.path, given=line).stdout.rstrip(b"\n")
        self.looked(again == wanted or not new and not came, f"{name}: asked again", again, wanted)
        if new:
            self.is_kept(name, made + (line,))

    def is_kept(self, name: str, lines: tuple[bytes, ...]) -> None:
        """The database has the rows that these lines make, and its charges are right."""
        checked, rows = run(self.program, "check", "--db", self.path), rows_of(self.path)
        is_well = (checked.returncode, checked.stdout) == (0, b"0\n") and rows == self.judge.rows(lines)
        self.looked(is_well, f"{name}: what is kept", checked, rows)

    # messages

    def message(self, asked: list[tuple[bytes, int]], at: int, first: str, keep: int) -> None:
        """Each allocation of the message at this place, behind those before it, of a server on a copy of an index."""
        front, (message, status) = tuple(it for it, _ in asked[:at]), asked[at]
        whole = self.reply(front + (message,), first, keep)[0]
        self.looked((parts_of(whole) or [0])[0] == status, f"it has {status}", whole)
        indexes: list[Messages] = []
        with ExitStack() as running:

            def rest():
                if not indexes:
                    copy_index(first, self.path)
                    indexes.append(running.enter_context(Messages(self.program, self.path, self.refusals, keep)))
                    for it in front:
                        indexes[0].send(it)
                return indexes[0].process

            for number, (reply, said) in self.each(rest, lambda: indexes[0].send(message)):
                if not number:
                    self.looked((reply, said) == (whole, b""), "none refused", reply, said)
                    break
                self.looked(is_right(message, whole, reply, said), f"allocation {number} refused", reply, said)
                if reply == whole or number % self.step == 0:
                    made = front + (message,) if reply == whole else front
                    self.sees(f"behind allocation {number}", indexes.pop(), made + (message,), first, keep)
                    running.close()

    def reply(self, messages: tuple[bytes, ...], first: str, keep: int) -> tuple[bytes, list[bytes]]:
        """The reply to the last of these messages, and what is seen behind it, if no allocation is refused."""
        if messages not in self.replies:
            path = copy_index(first, f"{self.folder}/beside.db")
            with Messages(self.program, path, self.refusals, keep) as index:
                came = [index.send(message) for message in messages]
                self.replies[messages] = came[-1][0], [index.send(it)[0] for it in LOOKS]
        return self.replies[messages]

    def sees(self, name, index, messages, first, keep) -> None:
        """The server answers the last of these messages, and what is looked up behind it, as if no allocation had been
        refused."""
        came = index.send(messages[-1])[0], [index.send(it)[0] for it in LOOKS]
        wanted = self.reply(messages, first, keep)
        self.looked(came == wanted and index.process.poll() is None, f"{name}: asked again", came, wanted)

    # whole runs

    def runs(self, share: tuple[int, int], first: str | None, *words: str, given: bytes = b""):
        """By name how a run on these words ends to which an allocation is refused: of each `step` one, and of these one
        in so many, from this place on."""
        at, of = share
        for number in itertools.count(1 + at * self.step, of * self.step):
            copy_index(first or "", self.path)
            self.refusals.begin(number)
            ended = end_of(self.program, *words, given=given, setting=self.refusals.setting)
            if not self.refusals.was_refused():
                break
            yield f"allocation {number} refused", ended
        # (the first number of another place is above 1)
        self.looked(number > 1, "allocations were refused")

    def rows_behind(self, path: str):
        """What the rows of a copy of a database are behind `check`."""
        copy = copy_index(path, f"{self.folder}/behind.db")
        run(self.program, "check", "--db", copy)
        return seen_by_sqlite(copy)


def is_right(message: bytes, whole: bytes, reply: bytes, said: bytes) -> bool:
    """Whether this reply, of which the server says this, is one for which an allocation was refused."""
    if reply == whole:
        return said == b""
    if not reply:
        return said == NO_MEMORY_FOR_ONE
    if message in (ROOT, PAGE):
        return said == CUT and whole.startswith(reply)
    status, _, body = parts_of(reply) or (0, None, b"")
    return (status, body, said) == (503, FAULT, b"")


def is_end(ended: End, output: bytes | None) -> bool:
    """Whether a run that changes nothing ended with this output, or without memory and with a front of it."""
    if ended.status == 0:
        return (ended.output, ended.error) == (output, b"")
    return (ended.status, ended.error) == (1, NO_MEMORY) and (output or b"").startswith(ended.output)
