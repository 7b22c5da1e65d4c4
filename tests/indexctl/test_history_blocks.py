"""The blocks of OPERATING on who did what, as a person pastes them."""
from __future__ import annotations

import gzip
import json
import os
import sqlite3
import stat
from contextlib import closing
from pathlib import Path

import pytest
from support.indexctl.control import filled, line, upload_line, user_lines
from support.needed import want_command
from support.places import TOP
from support.running import run_command
from support.server.pasted import block

INDEXCTL = f'indexctl() {{ PYTHONPATH={TOP}:{TOP}/server/lib python3 -B -m indexctl "$@"; }}\n'
SENT = "frob-6.6-py3-none-any.whl", "frob-6.6.tar.gz", "frob-6.5.tar.gz"


def logged(at: int, path: str, **more: object) -> str:
    return json.dumps({"at": f"2026-11-30T00:00:{at:02}+00:00", "id": str(at), "from": "192.0.2.7", "user": "",
                       "caller": "", "status": 201, "reached": True, "took": 0.1, "method": "PUT", "path": path,
                       "file": "", "body": "", **more}, separators=(",", ":")) + "\n"


def pasted(script: str, folder: str) -> list[str]:
    """What a block prints if /var is below a folder."""
    ended = run_command(["bash", "-ec", INDEXCTL + script.replace("/var/", f"{folder}/var/")], HOME=folder)
    assert ended.returncode == 0, ended
    return [it.replace(folder, "") for it in ended.stdout.splitlines()]


@pytest.fixture
def machine(program: str, folder: str) -> str:
    """A machine's logs and copies: the second copy has two files of frob 6.6, and the first one none."""
    want_command("sqlite3", "sqlite3")
    for path in ("backups/index", "log/nginx", "log/package-index"):
        os.makedirs(f"{folder}/var/{path}")
    for hour, sent in ((0, SENT[2:]), (1, SENT)):
        made = filled(program, f"{folder}/{hour}.db", [*user_lines("ann"), line(1, "ann", "claim", name="frob"),
                                                      *(upload_line(2, "ann", it, 5) for it in sent)])
        with closing(sqlite3.connect(made)) as database:
            # without a log beside it, as index-backup makes it
            database.execute("VACUUM INTO ?", (f"{folder}/var/backups/index/index-20261130T0{hour}0000Z.db",))
    return folder


def test_a_leaked_package_is_found_with_who_put_it_there_and_who_fetched_it(machine):
    log = Path(f"{machine}/var/log/package-index/changes.log")
    lines = [logged(at, f"/files/frob/{it}", caller="4c26d907") for at, it in enumerate(SENT)]
    log.write_text("".join(lines[1:]))
    with gzip.open(f"{log}.2.gz", "wt") as made:
        made.write(lines[0])
    access = Path(f"{machine}/var/log/nginx/access.log")
    fetched = [f'192.0.2.{at} - - [30/Nov/2026:00:00:00 +0000] "GET /files/frob/{it} HTTP/1.1" 200 5 "-" "pip"'
               for at, it in enumerate(SENT)]
    access.write_text("\n".join(fetched[1:]) + "\n")
    with gzip.open(f"{access}.2.gz", "wt") as made:
        made.write(fetched[0] + "\n")
    script = block("name=frob file=frob-6.6").replace("history", f"history {log} {log}.2.gz".replace(machine, ""))
    said = pasted(script, machine)
    at = [said.index(it) for it in ("put there and taken away by:", "fetched by:", "kept in:")]
    changed, got, kept = said[at[0] + 1:at[1]], said[at[1] + 1:at[2]], said[at[2] + 1:]
    assert [it.split()[-1] for it in changed] == list(SENT[:2])
    assert sorted(it.split()[0] for it in got) == ["192.0.2.0", "192.0.2.1"]
    assert sorted(kept) == [f"/var/backups/index/index-20261130T010000Z.db|{it}" for it in SENT[:2]]


def test_a_person_is_taken_out_of_the_log_and_nothing_else_is(folder):
    os.makedirs(f"{folder}/var/log/package-index")
    log = Path(f"{folder}/var/log/package-index/changes.log.2.gz")
    other = logged(3, "/c", **{"from": "192.0.2.77", "user": "anna"})
    said = logged(4, "/d", **{"from": "192a0b2c7", "body": '{"user":"ann"}'})
    with gzip.open(log, "wt") as made:
        made.write(logged(1, "/a", user="ann") + logged(2, "/b") + other + said)
    log.chmod(0o640)
    os.utime(log, (1_000_000_000, 1_000_000_000))
    pasted(block("(cd /var/log/package-index"), folder)
    with gzip.open(log, "rt") as kept:
        found = [json.loads(it) for it in kept]
    assert [(it["from"], it["user"], it["path"]) for it in found[:2]] == [("", "", "/a"), ("", "", "/b")]
    assert found[2:] == [json.loads(other), json.loads(said)]
    seen = log.stat()
    assert (stat.S_IMODE(seen.st_mode), seen.st_mtime) == (0o640, 1_000_000_000)
    assert os.listdir(log.parent) == [log.name]
