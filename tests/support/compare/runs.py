"""Runs of lines and messages: what the model says of them, what the program does, and where the two differ."""
import os
import re
import socket
import sqlite3
import subprocess
import tempfile
from contextlib import closing, suppress
from typing import NamedTuple, Optional

from support.judge import copy_index
from support.model import formats, messages
from support.model import tables as tables_of_model
from support.serving import OFFICE, Index, make_index
from support.volumes import bodies_of, has_volume

PATIENCE = 60
NEWLINE = b"\n"
TABLES = "meta", "users", "names", "owners", "files", "blobs", "yanks", "cases", "bans"


class Step(NamedTuple):
    """A line, or a message that is sent at a moment; or `open`, behind which the program is started again. `line` asks
    the same as a message, if a line can."""
    kind: str
    data: bytes = b""
    at: Optional[int] = None
    line: Optional[bytes] = None


class Difference(NamedTuple):
    """Where the model and the program differ: up to which step, in what, and what each has."""
    steps: int
    subject: str
    expected: object
    found: object


def groups(steps):
    """Steps that one process takes: lines, or messages of one moment; with the number of steps up to their end."""
    group = []
    for number, step in enumerate(steps):
        if group and (step.kind, step.at) != (group[-1].kind, group[-1].at):
            yield number, group
            group = []
        if step.kind != "open":
            group.append(step)
    if group:
        yield len(steps), group


def by_model(tables, step):
    """The answer of the model to a step."""
    if step.kind == "line":
        return formats.line_answer(tables, step.data)
    return messages.reply(tables, step.at, step.data)


class Runner:
    """Runs steps by the program and by the model, over a database in a folder, or over tables in memory, which take
    lines alone."""

    def __init__(self, program, folder, keep=None):
        self.program, self.folder, self.keep = program, folder, keep
        with suppress(FileExistsError):
            os.mkdir(f"{folder}/new")
            make_index(program, f"{folder}/new/index.db")

    def difference(self, store, steps, only_answers=False):
        """The first difference, or None."""
        tables = tables_of_model.Tables()
        if store == "memory":
            return self.difference_of_group(tables, len(steps), steps, []) if steps else None
        with tempfile.TemporaryDirectory(dir=self.folder) as folder:
            path = copy_index(f"{self.folder}/new/index.db", f"{folder}/index.db")
            for number, (end, group) in enumerate(groups(steps)):
                found = self.difference_of_group(tables, end, group, ["--db", path])
                if not only_answers:
                    found = found or self.difference_of_rows(tables, end, path)
                    found = found or number % 5 == 0 and self.difference_of_looks(tables, end, path)
                if found:
                    return found
        return None

    def difference_of_group(self, tables, end, group, words):
        """The first answer that differs, or the end of the process."""
        expected = [by_model(tables, step) for step in group]
        try:
            found, ended = self.serve(group, words[1]) if group[0].kind == "message" else self.apply(group, words)
        except (subprocess.TimeoutExpired, OSError) as fault:
            return Difference(end, "the end of the process", (0, b""), repr(fault))
        for place, (wanted, seen) in enumerate(zip(expected, found)):
            if wanted != seen:
                return Difference(end - len(group) + place + 1, "the answer", wanted, seen)
        if len(expected) != len(found) or ended != (0, b""):
            return Difference(end, "the end of the process", (len(expected), (0, b"")), (len(found), ended))
        return None

    def apply(self, group, words):
        ended = subprocess.run([self.program, "apply", *words], input=b"".join(step.data + NEWLINE for step in group),
                               stdout=subprocess.PIPE, stderr=subprocess.PIPE, timeout=PATIENCE)
        return ended.stdout.split(b"\n")[:-1], (ended.returncode, ended.stderr)

    def serve(self, group, path):
        with Index(self.program, len(group), path, at=group[0].at, keep=self.keep) as index:
            found = [reply_to(index.port, step.data) for step in group]
            index.process.wait(timeout=PATIENCE)
            return found, (index.process.returncode, index.errors())

    def difference_of_rows(self, tables, end, path):
        """The first table whose rows differ, while no program has the database open."""
        wanted, found = tables_of_model.rows(tables), rows_of(path)
        if "--volume" in OFFICE:
            wanted["meta"] = [(1, "python-index", 3)]
        for table in TABLES:
            if wanted[table] != found[table]:
                return Difference(end, f"the rows of {table}", *only(wanted[table], found[table]))
        return None

    def difference_of_looks(self, tables, end, path):
        """What `report` and `check` print."""
        for word, expected in (("report", formats.report(tables)), ("check", formats.check(tables))):
            ended = subprocess.run([self.program, word, "--db", path], stdout=subprocess.PIPE, stderr=subprocess.STDOUT,
                                   timeout=PATIENCE)
            if (ended.returncode, ended.stdout) != (0, expected):
                return Difference(end, word, expected, ended.stdout)
        return None


def reply_to(port, message):
    """What comes back until the connection ends. The client ends its side behind the message."""
    reply = b""
    with socket.create_connection(("127.0.0.1", port), timeout=PATIENCE) as peer:
        with suppress(OSError):
            peer.sendall(message)
            peer.shutdown(socket.SHUT_WR)
        with suppress(ConnectionResetError):
            while more := peer.recv(1 << 16):
                reply += more
    return reply


def rows_of(path):
    """The rows of each table, with the bytes of files also if these lie in a volume."""
    with closing(sqlite3.connect(path)) as database:
        rows = {table: database.execute(f"SELECT * FROM {table}").fetchall() for table in TABLES}
    if has_volume(path):
        rows["blobs"] = bodies_of(path, rows["blobs"])
    return {table: sorted(those, key=repr) for table, those in rows.items()}


def only(wanted, found):
    """The rows that one has and the other has not."""
    return [row for row in wanted if row not in found], [row for row in found if row not in wanted]


def as_lines(steps):
    """The lines among some steps, and the lines that ask the same as messages."""
    asked = [step.data if step.kind == "line" else step.line for step in steps]
    return [Step("line", line) for line in asked if line is not None]


def in_fewer_starts(runner, store, steps, difference):
    """The same difference over tables in memory, or with lines alone before its last step; or as it was."""
    for other, asked in (("memory", as_lines(steps)), ("database", as_lines(steps[:-1]) + steps[-1:])):
        found = runner.difference(other, asked)
        if found:
            return other, asked[:found.steps], found
    return store, steps, difference


def smallest(runner, store, steps, difference, is_over):
    """Fewer steps that differ still: chunks are left out, ever smaller ones, until none can be or the time is over."""
    store, steps, difference = in_fewer_starts(runner, store, steps[:difference.steps], difference)
    size, only_answers = max(1, len(steps) // 2), difference.subject == "the answer"
    while size and not is_over():
        start, before = 0, len(steps)
        while start < len(steps) and not is_over():
            fewer = steps[:start] + steps[start + size:]
            found = runner.difference(store, fewer, only_answers)
            if found:
                steps, difference = fewer[:found.steps], found
            else:
                start += size
        size = size // 2 if size > 1 or len(steps) == before else 1
    return store, steps, difference


ASK = """ask() { printf "$1" | python3 -c 'import socket, sys
with socket.create_connection(("127.0.0.1", 8080)) as peer:
    peer.sendall(sys.stdin.buffer.read())
    peer.shutdown(socket.SHUT_WR)
    while more := peer.recv(65536): sys.stdout.buffer.write(more)'; echo; }
"""


def pasted(program, store, steps):
    """The steps as a script of bash."""
    if store == "memory":
        return applied(f"{program} apply", steps)
    said = ASK if any(step.kind == "message" for step in steps) else ""
    said += f"{program} init --db try.db {' '.join(OFFICE)}\n"
    for _, group in groups(steps):
        if group[0].kind == "line":
            said += applied(f"{program} apply --db try.db", group)
        else:
            words = f"--listen 127.0.0.1:8080 --requests {len(group)} --at {group[0].at}"
            asked = "".join(f"ask {quoted(step.data)}\n" for step in group)
            said += f"{program} serve --db try.db {words} &\nsleep 1\n{asked}wait\n"
    return said + f"{program} report --db try.db\n"


def applied(command, steps):
    """Lines as a script: as they are, or by printf if they have odd bytes."""
    if all(re.fullmatch(rb"[ -~]*", step.data) for step in steps):
        return "\n".join([f"{command} << 'END'", *(step.data.decode() for step in steps), "END", ""])
    return f"printf {quoted(b''.join(step.data + NEWLINE for step in steps))} | {command}\n"


def quoted(data):
    """Bytes as a format of printf, in single quotes."""
    written = {ord("\r"): "\\r", ord("\n"): "\\n", ord("%"): "%%", ord("\\"): "\\\\", ord("'"): "\\047"}
    for byte in (*range(32), *range(127, 256)):
        written.setdefault(byte, f"\\x{byte:02x}")
    return "'" + "".join(written.get(byte) or chr(byte) for byte in data) + "'"


def shown(value):
    """What one side has, cut where it is long."""
    text = value.decode("utf-8", "backslashreplace") if isinstance(value, bytes) else repr(value)
    return text if len(text) <= 3_000 else text[:3_000] + f" .. ({len(text)} characters)"
