"""A walk over many names, through nginx with TLS."""
from __future__ import annotations

import json
import resource
import sqlite3
from contextlib import closing

import pytest
from support.indexctl.control import Control
from support.planted import catches
from support.serving import Index, make_index

NAMES = 10_000
# Of a processor, of which it takes two: by the clock the index and other work have their share. Others of a machine
# have a share of that too, so what took more is tried again.
MOST_SECONDS, PATIENCE, TRIALS = 10, 300, 3


def filled_by_sqlite(program: str, path: str) -> str:
    """An index with many names. Put there by requests they would take longer than the walk."""
    make_index(program, path)
    names = [f"name-{at:05}" for at in range(NAMES)]
    with closing(sqlite3.connect(path)) as database, database:
        row = "INSERT INTO names (name, state, shown, quota, charged, live) VALUES (?, 1, ?, 1000, 0, 0)"
        database.executemany(row, [(it, it) for it in names])
        database.executemany("INSERT INTO owners (name, user) VALUES (?, 'office')", [(it,) for it in names])
    return path


def spent() -> float:
    """The seconds of a processor that children took which have ended."""
    used = resource.getrusage(resource.RUSAGE_CHILDREN)
    return used.ru_utime + used.ru_stime


@catches("indexctl/standings.py", 'names, "names") if it.state == "held")',
         'names, "names") if it.state == "held" and not it.name.endswith("7"))')
@pytest.mark.slow
@pytest.mark.timeout(400)
def test_ten_thousand_names_come_in_order_and_cost_little(program, open_folder, certificate, looked):
    from support.server.front import Front
    path = filled_by_sqlite(program, f"{open_folder}/walk.db")
    with Index(program, path=path, patience=60) as index:
        with Front(f"{open_folder}/walk-front", certificate, index.port) as front:
            control, trials = Control(open_folder, front.url, certificate), []
            while not trials or min(trials) >= MOST_SECONDS and len(trials) < TRIALS:
                before = spent()
                out, errors = control.start("names", "--json").communicate(timeout=PATIENCE)
                trials.append(spent() - before)
                rows = json.loads(out or "[]")
                looked([it["name"] for it in rows] == [f"name-{at:05}" for at in range(NAMES)], len(rows), errors)
    looked(min(trials) < MOST_SECONDS, trials)
