"""An index with a row of each kind, and changes of one row each that only `index-verify` sees."""
from __future__ import annotations

import json
import sqlite3
import subprocess
from contextlib import closing

from support.places import BIN
from support.running import run_command
from support.serving import make_index, sha256

BODY = b"a body"


def line(**request: object) -> str:
    return json.dumps({"at": 1_000_000, "token": "office", **request}) + "\n"


def file_line(file: str) -> str:
    return line(do="upload", file=file, sha256=sha256(BODY), hex=BODY.hex(), requires_python=">=3.8")


# one row or more of each table, as docs/reference/REQUESTS.md and docs/reference/FORMATS.md have them
LINES = (line(do="add_user", user="ann", office=False, token_sha256=sha256(b"abc")),
         line(do="claim", name="Frob.Nest"), line(do="claim", name="spam"), line(do="prohibit", name="evil"),
         file_line("frob_nest-1.0RC1-1-py3-none-any.whl"), file_line("Frob.Nest-2.0+fix.tar.gz"),
         file_line("frob-nest-3.tar.gz"), line(do="delete", file="frob-nest-3.tar.gz"),
         file_line("frob-nest-4.tar.gz"), line(do="ban_file", file="frob-nest-4.tar.gz"),
         line(do="yank", name="frob-nest", release="1.0rc1", reason="broken"),
         line(do="open_case", token="abc", name="spam", kind="reuse", contact="mail", work="fork", why="used"),
         line(do="record_attempt", name="spam", means="pages", sent=True))

# by the name of a test, a change that `index check` and SQLite's integrity_check don't see, and what index-verify says
WRONG = {
    "a_user_who_is_neither": ("UPDATE users SET office = 9 WHERE user = 'ann'", "neither of the office nor not: ann"),
    "shown_as_another": ("UPDATE names SET shown = 'Frob.Nets' WHERE name = 'frob-nest'",
                         "shown as another one: frob-nest"),
    "a_wrong_number_of_files": ("UPDATE names SET live = 3 WHERE name = 'frob-nest'",
                                "wrong number of files: frob-nest"),
    "no_owner": ("DELETE FROM owners WHERE name = 'spam'", "without an owner: spam"),
    "a_yank_of_a_name_that_is_not_held": ("INSERT INTO yanks VALUES ('evil', '1.0', '')", "not held: evil"),
    "another_release": ("UPDATE files SET rel = '1.0' WHERE rel = '1.0rc1'",
                        "release that its name doesn't spell: frob_nest-1.0RC1"),
    "another_project": ("UPDATE files SET name = 'spam' WHERE rel = '3'",
                        "project that its name doesn't spell: frob-nest-3"),
    "a_file_that_is_neither": ("UPDATE files SET live = 2 WHERE rel = '3'", "neither deleted nor not: frob-nest-3"),
    "a_short_digest": ("UPDATE files SET digest = zeroblob(31) WHERE rel = '3'", "not 32 bytes: frob-nest-3"),
    "no_bytes": ("DELETE FROM blobs WHERE file = 'Frob.Nest-2.0+fix.tar.gz'", "bytes are missing: Frob.Nest-2.0"),
    "bytes_of_a_deleted_file": ("INSERT INTO blobs VALUES ('frob-nest-3.tar.gz', x'00')",
                                "a file that is deleted: frob-nest-3"),
    "other_bytes": ("UPDATE blobs SET body = CAST('a BODY' AS BLOB) WHERE file = 'Frob.Nest-2.0+fix.tar.gz'",
                    "their digest and size: Frob.Nest-2.0"),
    "a_yank_of_no_release": ("UPDATE yanks SET rel = '1.0RC1'", "not a release: frob-nest 1.0RC1"),
    "a_case_out_of_range": ("UPDATE cases SET profile = 3", "out of range: spam"),
    "a_ban_of_a_file_that_is_there": ("INSERT INTO bans VALUES ('Frob.Nest-2.0+fix.tar.gz')",
                                      "not deleted: Frob.Nest-2.0"),
}


def made(program: str, path: str) -> str:
    """An index with a row of each kind, closed."""
    make_index(program, path)
    ended = subprocess.run([program, "apply", "--db", path], input="".join(LINES), stdout=subprocess.PIPE, text=True,
                           timeout=60)
    if ended.stdout != '{"answer":"accepted"}\n' * len(LINES):
        raise RuntimeError(f"a line was not accepted: {ended.stdout}")
    return path


def changed(path: str, statement: str) -> int:
    """Changes rows behind the program's back, also against SQLite's own rules, and returns how many."""
    with closing(sqlite3.connect(path)) as database, database:
        database.execute("PRAGMA ignore_check_constraints = 1")
        return database.execute(statement).rowcount


def verified(program: str, path: str) -> subprocess.CompletedProcess:
    return run_command([f"{BIN}/index-verify", path], INDEX=program)
