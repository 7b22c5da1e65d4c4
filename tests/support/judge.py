"""What the tables of an index should be, by the program itself, and what they are, by SQLite."""
import os
import shutil
import sqlite3
import struct
from contextlib import closing

from support.serving import make_index, sha256
from support.running import new_folder, run
from support.volumes import VOLUME, bodies_of, has_volume
from support.workload import STORE

TABLES = ("meta", "users", "names", "owners", "files", "blobs", "yanks", "cases", "bans")
LOG = "-wal"
# the answer to what asks nothing, for which the tables are not looked at
MESSAGE = b'{"answer":"message"'
# in seconds: a program that is not proved takes long for many large files, and longer on a busy machine
PATIENCE = 600


def copy_index(path, to):
    """Copies a database, its log and its volume to another path, and leaves nothing else there."""
    for end in ("", LOG, VOLUME, "-shm", "-journal"):
        if os.path.exists(to + end):
            os.remove(to + end)
        if end in ("", LOG, VOLUME) and os.path.exists(path + end):
            shutil.copy(path + end, to + end)
    return to


def rows_of(path):
    """The rows of each table of a database, in order, with the bytes of files also if these lie in a volume. A table
    that is not there has none."""
    found = {}
    with closing(sqlite3.connect(path)) as database:
        for table in TABLES:
            if database.execute("SELECT 1 FROM sqlite_master WHERE name = ?", (table,)).fetchall():
                rows = database.execute(f"SELECT * FROM {table}").fetchall()
                rows = bodies_of(path, rows) if table == "blobs" and has_volume(path) else rows
                found[table] = sorted(map(short, rows), key=repr)
    return found


def short(row):
    """A row with a digest in the place of what is long."""
    return tuple(sha256(value) if isinstance(value, bytes) and len(value) > 1_000 else value for value in row)


def seen_by_sqlite(path):
    """What SQLite says of a copy of a database and its log: whether it is sound, and its rows."""
    with new_folder() as folder:
        copy = copy_index(path, f"{folder}/copy.db")
        try:
            with closing(sqlite3.connect(copy)) as database:
                said = database.execute("PRAGMA integrity_check").fetchall()
            return said == [("ok",)], rows_of(copy)
        except (sqlite3.DatabaseError, OSError, struct.error) as end:
            return False, repr(end)


class Judge:
    """The answers to lines, by the program over tables in memory; and the rows after them, by the program over a new
    database, whose answers have to be those over memory."""

    def __init__(self, program, folder):
        self.program, self.folder = program, folder
        self.new = make_index(program, f"{folder}/judge-new.db")
        self.known_answers, self.known_rows = {}, {}

    def answers(self, lines):
        if lines not in self.known_answers:
            ended = run(self.program, "apply", given=b"".join(lines), patience=PATIENCE)
            if ended.returncode or ended.stderr:
                raise RuntimeError(f"apply over memory ended with {ended}")
            self.known_answers[lines] = tuple(ended.stdout.splitlines())
        return self.known_answers[lines]

    def rows(self, lines):
        if lines not in self.known_rows:
            path = copy_index(self.new, f"{self.folder}/judge.db")
            ended = run(self.program, "apply", "--db", path, given=b"".join(lines), patience=PATIENCE)
            if (ended.returncode, tuple(ended.stdout.splitlines())) != (0, self.answers(lines)):
                raise RuntimeError(f"apply over a database differs from apply over memory: {ended}")
            self.known_rows[lines] = rows_of(path)
        return self.known_rows[lines]


def kept_lines(lines, answers):
    """The lines that were not answered by Store; and of those that were, the ones behind which nothing came of the
    tables."""
    stopped = [at for at, answer in enumerate(answers) if answer == STORE]
    last = max((at for at, answer in enumerate(answers) if answer != STORE and not answer.startswith(MESSAGE)),
               default=-1)
    kept = tuple(line for at, line in enumerate(lines[:len(answers)]) if at not in stopped)
    return kept, tuple(lines[at] for at in stopped if at > last)


def answers_are_right(judge, lines, answers):
    """Whether each answer is the verdict on the tables at its point, or Store, which changes nothing that is seen
    later."""
    kept, _ = kept_lines(lines, answers)
    return judge.answers(kept) == tuple(answer for answer in answers if answer != STORE)


def after(judge, lines, answers, rows):
    """The lines whose effect these rows are: those that were kept, or these and one that was answered by Store since.
    None where it is of neither."""
    kept, stopped = kept_lines(lines, answers)
    for made in (kept, *(kept + (line,) for line in stopped)):
        if judge.rows(made) == rows:
            return made
    return None
