"""Who changed what, and when: by nginx's log of what people did by indexctl and by a form of twine, and by a backup."""
from __future__ import annotations

import base64
import gzip
import json
import os
import subprocess
import sys
from contextlib import ExitStack
from pathlib import Path
from typing import Iterator

import pytest
from support.clients.forms import BOUNDARY, Service, form
from support.indexctl.control import Control, assert_ends, digest
from support.needed import want_file
from support.places import BIN
from support.server.front import Front, kept
from support.server.waits import wait_for
from support.serving import Index

pytestmark = pytest.mark.xdist_group("history")
FORM, ARCHIVE = "frob-1.0-py3-none-any.whl", "frob-1.2.tar.gz"


class Past:
    """An index behind nginx, what was done there by whom, and a backup of after that."""

    def __init__(self, front: Front, by: Control, backup: str) -> None:
        self.front, self.by, self.backup = front, by, backup
        self.log = f"{front.folder}/index-changes.log"

    def rows(self, *words: str) -> list[tuple[str, ...]]:
        """Who did what to which name and file, of these lines of the history."""
        ended = self.by.run("history", self.log, "--json", *words)
        assert_ends(ended, 0)
        found = [json.loads(it) for it in ended.stdout.splitlines()]
        return [(" or ".join(it["who"]) or it["caller"], it["do"], it["name"], it["file"]) for it in found]


@pytest.fixture(scope="module")
def past(program: str, certificate: str, open_folder: str) -> Iterator[Past]:
    want_file("/usr/share/nginx/modules-available/mod-http-js.conf", "libnginx-mod-http-js")
    with ExitStack() as stack:
        index = stack.enter_context(Index(program))
        service = stack.enter_context(Service(index.port))
        front = Front(f"{open_folder}/front", certificate, index.port)
        front.put("index/server.d/legacy.conf", kept("legacy.conf"), **{"127.0.0.1:8090": f"127.0.0.1:{service.port}"})
        stack.enter_context(front)
        do(front)
        yield Past(front, Control(open_folder, None, INDEX_TOKEN=None), backup_of(index, program, open_folder))


def posted(front: Front, user: str) -> tuple:
    """A form as twine sends it."""
    login = base64.b64encode(f"__token__:{user}".encode()).decode()
    return front.ask("POST", "/legacy/", form(FORM, b"a form"), Authorization=f"Basic {login}",
                     Content_Type=f"multipart/form-data; boundary={BOUNDARY}")


def do(front: Front) -> None:
    """What people do. Each waits for the line of the one before: nginx has two workers, and each writes its own."""
    def new(user: str) -> tuple:
        return front.request(do="add_user", user=user, office=False, token_sha256=digest(user))
    for number, (ask, status) in enumerate((
            (lambda: new("ann"), 200), (lambda: new("bob"), 200), (lambda: front.claim("Frob", "ann"), 200),
            (lambda: front.request("ann", do="add_owner", name="frob", user="bob"), 200),
            (lambda: posted(front, "bob"), 200), (lambda: front.upload("frob", ARCHIVE, b"x", token="ann"), 201),
            (lambda: front.ask("DELETE", f"/files/frob/{ARCHIVE}", X_Index_Token="bob"), 200),
            (lambda: front.claim("frob"), 409)), 1):
        assert ask()[0] == status
        assert wait_for(lambda: len(front.changes()) == number), front.changes()


def backup_of(index: Index, program: str, folder: str) -> str:
    os.mkdir(f"{folder}/copies")
    ended = subprocess.run([sys.executable, f"{BIN}/index-backup", index.path, f"{folder}/copies"], timeout=60,
                           stdout=subprocess.PIPE, stderr=subprocess.STDOUT, text=True,
                           env={**os.environ, "INDEX": program})
    assert ended.returncode == 0, ended.stdout
    made, = Path(f"{folder}/copies").glob("*.db")
    return str(made)


# the office's token stands in no line of the log
OFFICE = digest("office")[:8]
DONE = [(OFFICE, "add_user", "", ""), (OFFICE, "add_user", "", ""), ("ann", "claim", "frob", ""),
        ("ann", "add_owner", "frob", ""), ("bob", "upload", "frob", FORM), ("ann", "upload", "frob", ARCHIVE),
        ("bob", "delete", "frob", ARCHIVE)]


def by_name(rows: list[tuple[str, ...]]) -> list[tuple[str, ...]]:
    """As with a backup, which knows the office's token too."""
    return [("office" if it[0] == OFFICE else it[0], *it[1:]) for it in rows]


def test_the_log_alone_says_who_did_what_and_who_uploaded_by_twine(past):
    assert past.rows() == DONE


def test_with_a_backup_all_are_named(past):
    assert past.rows("--users", past.backup) == by_name(DONE)


def test_one_is_found_by_the_name_and_the_file(past):
    assert past.rows("--user", "bob", "--users", past.backup) == [DONE[4], DONE[6]]
    assert past.rows("--file", FORM) == [DONE[4]]
    assert past.rows("--name", "FROB", "--refused")[-1] == ("", "claim", "frob", "")


def test_logs_that_logrotate_compressed_are_read_too(past, folder):
    with open(past.log, "rb") as log:
        lines = log.readlines()
    with gzip.open(f"{folder}/changes.log.2.gz", "wb") as made:
        made.writelines(lines[:5])
    with open(f"{folder}/changes.log", "wb") as made:
        made.writelines(lines[5:])
    whole = past.by.run("history", past.log, "--refused")
    parts = past.by.run("history", f"{folder}/changes.log", f"{folder}/changes.log.2.gz", "--refused")
    assert_ends(parts, 0, f"ann              127.0.0.1        upload          frob  {ARCHIVE}", "(refused: 409)")
    assert parts.stdout == whole.stdout


def test_a_record_is_read_too(past, folder):
    """It has what its person did, also where nginx names no callers."""
    record = f"{folder}/record"
    by = Control(folder, past.front.url, past.front.certificate, INDEX_RECORD=record)
    assert_ends(by.run("name", "claim", "own", caller="ann"), 0)
    ended = by.run("history", record, "--users", past.backup)
    assert_ends(ended, 0, "ann              -                claim           own  -")
