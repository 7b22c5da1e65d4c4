"""What bench measures of an index in a database: uploads beside the C library, changes beside many files, and
openings."""
import os
import shutil
import sqlite3
import subprocess
import tempfile
import time
from contextlib import closing

from lib.figures import ROUNDS, goal, line, load, median, memory_of
from support.running import new_folder
from support.serving import JSON_PAGE, Index, accepted, make_index, sha256
from support.workload import line_of

UPLOADS, MEBIBYTE = 2_000, 1 << 20
# of other projects, 100 each, and of the one project with a release for each file
OTHERS, OWN = 45_000, 5_000
TABLES = "users", "names", "owners", "files", "blobs", "yanks", "cases", "bans"

# what an upload writes, in its order
STATEMENTS = (
    "INSERT INTO names (name, state, shown, quota, charged, live, last_upload) VALUES (?1, ?2, ?3, ?4, ?5, ?6, ?7) "
    "ON CONFLICT (name) DO UPDATE SET state = excluded.state, shown = excluded.shown, quota = excluded.quota, "
    "charged = excluded.charged, live = excluded.live, last_upload = excluded.last_upload",
    "INSERT INTO files (file, name, rel, digest, size, requires, live) VALUES (?1, ?2, ?3, ?4, ?5, ?6, ?7) "
    "ON CONFLICT (file) DO UPDATE SET name = excluded.name, rel = excluded.rel, digest = excluded.digest, "
    "size = excluded.size, requires = excluded.requires, live = excluded.live",
    "DELETE FROM blobs WHERE file = ?1",
    "INSERT INTO blobs (file, body) VALUES (?1, ?2)",
)
# the program opens its database so that each commit is synced twice
SETTINGS = ("PRAGMA journal_mode = WAL", "PRAGMA synchronous = EXTRA", "PRAGMA foreign_keys = ON",
            "PRAGMA locking_mode = EXCLUSIVE")


def file_name(project, number):
    return f"{project}-1.{number}.tar.gz"


def asked(**request):
    return line_of("office", 1, **request)


def upload_line(project, number):
    return asked(do="upload", file=file_name(project, number), sha256=sha256(b"abc"), hex="616263", requires_python="")


def apply(program, path, lines):
    """The seconds of a processor that a run over these lines takes, each of which was accepted."""
    with tempfile.TemporaryFile() as given, tempfile.TemporaryFile() as taken:
        given.writelines(lines)
        given.seek(0)
        running = subprocess.Popen([program, "apply", "--db", path], stdin=given, stdout=taken)
        _, status, used = os.wait4(running.pid, 0)
        running.returncode = os.waitstatus_to_exitcode(status)
        taken.seek(0)
        if running.returncode != 0 or taken.read() != b'{"answer":"accepted"}\n' * len(lines):
            raise SystemExit("bench: a line was not accepted")
    return used.ru_utime + used.ru_stime


def upload_time(program, folder, number):
    """The microseconds of a processor for an upload."""
    path = make_index(program, f"{folder}/ours-{number}.db")
    apply(program, path, [asked(do="claim", name="frob")])
    took = apply(program, path, [upload_line("frob", number) for number in range(UPLOADS)])
    return 1e6 * (took - apply(program, path, [])) / UPLOADS


def statement_time(program, folder, number):
    """The same for the rows of an upload, written by the C library into a database that the program made."""
    path = make_index(program, f"{folder}/plain-{number}.db")
    apply(program, path, [asked(do="claim", name="frob")])
    digest = bytes.fromhex(sha256(b"abc"))
    with closing(sqlite3.connect(path, isolation_level=None)) as database:
        for setting in SETTINGS:
            database.execute(setting)
        begun = time.process_time()
        for number in range(UPLOADS):
            file, done = file_name("frob", number), number + 1
            database.execute("BEGIN")
            database.execute(STATEMENTS[0], ("frob", 1, "frob", 1 << 30, 3 * done, done, 1))
            database.execute(STATEMENTS[1], (file, "frob", f"1.{number}", digest, 3, "", 1))
            database.execute(STATEMENTS[2], (file,))
            database.execute(STATEMENTS[3], (file, b"abc"))
            database.execute("COMMIT")
        return 1e6 * (time.process_time() - begun) / UPLOADS


def bench_uploads(program):
    with new_folder() as folder:
        ours = median(upload_time, program, folder)
        theirs = median(statement_time, program, folder)
        where = "in memory" if folder.startswith("/dev/shm") else "on a disk"
    line("uploads", f"of 3 bytes by apply --db {where}: {ours:.0f} us of a processor, by the C library {theirs:.0f}",
         f"ratio {ours / theirs:.2f}", goal(ours / theirs, most=3), load())


def filled(program, folder):
    """A database of many projects, one of which has a release for each of its many files."""
    path = make_index(program, f"{folder}/many.db")
    lines = [asked(do="claim", name="ours"), *(upload_line("ours", number) for number in range(OWN))]
    for project in range(OTHERS // 100):
        lines += [
            asked(do="claim", name=f"other{project}"),
            *(upload_line(f"other{project}", number) for number in range(100))
        ]
    lines += [asked(do="claim", name=f"{name}{number}") for name in ("none", "one") for number in range(ROUNDS)]
    lines += [upload_line(f"one{number}", 0) for number in range(ROUNDS)]
    apply(program, path, lines)
    return path


def milliseconds(ask):
    begun = time.monotonic()
    reply = ask()
    took = 1000 * (time.monotonic() - begun)
    if reply[0] not in (200, 201):
        raise SystemExit(f"bench: the index answered {reply[0]} {reply[2]!r}")
    return took


def changed(index, request_of, number):
    """The milliseconds of a request, which is the one of this number."""
    return milliseconds(lambda: index.request(**request_of(number)))


def page_time(index, number):
    return milliseconds(lambda: index.ask("GET", f"/simple/other{number}/", Accept=JSON_PAGE))


def upload_time_beside(index, number):
    return milliseconds(lambda: index.upload("other0", file_name("other0", 100 + number), b"abc"))


def release(number):
    """Releases that are spread over the files of the project."""
    return f"1.{OWN // ROUNDS * number + OWN // (2 * ROUNDS)}"


CHANGES = (
    ("prohibit a name without files", lambda number: {"do": "prohibit", "name": f"none{number}"}, 5),
    ("prohibit a name with one file", lambda number: {"do": "prohibit", "name": f"one{number}"}, 5),
    (f"yank in a project of {OWN:,} files",
     lambda number: {"do": "yank", "name": "ours", "release": release(number), "reason": ""}, 2),
    ("claim", lambda number: {"do": "claim", "name": f"new{number}"}, None),
)


def row_count(path):
    with closing(sqlite3.connect(path)) as database:
        return sum(database.execute(f"SELECT count(*) FROM {table}").fetchone()[0] for table in TABLES)


def bench_costs(program):
    """What requests take beside many files, and how long that database takes to open."""
    with tempfile.TemporaryDirectory() as folder:
        with new_folder() as made_in:
            filled(program, made_in)
            path = shutil.copytree(made_in, f"{folder}/made") + "/many.db"
        begun = time.monotonic()
        with Index(program, path=path, patience=60) as index:
            opened = time.monotonic() - begun
            line("costs", f"over HTTP, beside {OTHERS + OWN:,} files", load())
            for name, request_of, most in CHANGES:
                took = median(changed, index, request_of)
                line("", f"{name}: {took:.2f} ms", *([] if most is None else [goal(took, most=most)]))
            line("", f"page of 100 files, asked first: {median(page_time, index):.2f} ms",
                 f"upload: {median(upload_time_beside, index):.2f} ms")
        rows = row_count(path)
    each = 1e6 * opened / rows
    line("open", f"{rows:,} rows after {opened:.2f} s", f"{each:.1f} us a row", goal(each, most=15))


def bench_large(program, mebibytes=256):
    """How long the database of so many bodies of 1 MiB takes to open, and the most memory that it takes then."""
    with tempfile.TemporaryDirectory() as folder:
        path = make_index(program, f"{folder}/index.db")
        with Index(program, path=path) as index:
            accepted(index.claim("big"))
            for number in range(mebibytes):
                accepted(index.upload("big", file_name("big", number), os.urandom(MEBIBYTE)))
        length = os.path.getsize(path)
        begun = time.monotonic()
        with Index(program, path=path, patience=120) as index:
            opened = time.monotonic() - begun
            peak, after = (1024 * memory_of(index.process, row) for row in ("VmHWM", "VmRSS"))
    line("large", f"{length / MEBIBYTE:,.0f} MiB after {opened:.1f} s, at most {peak / MEBIBYTE:.0f} MiB of memory, "
         f"then {after / MEBIBYTE:.0f}", f"{peak / length:.2f} of the file", goal(peak / length, most=1.1))
