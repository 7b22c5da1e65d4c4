"""The memory that an index keeps after a start, by what its unit sets for glibc's allocator."""
import os
import re
import sqlite3
from contextlib import closing

import pytest
from support.places import SERVER
from support.serving import Index, accepted

FILES, LENGTH = 4_000, 8_300
SETTING = re.compile(r"^Environment=(MALLOC_\w+)=(\d+)$", re.M)
# of the most that a start took: with a heap that grows by 128 KiB at a time, two thirds of it stay
MOST_STAYS = 0.4


def of_unit():
    """What the unit sets for the allocator."""
    with open(f"{SERVER}/systemd/index.service", encoding="utf-8") as unit:
        return dict(SETTING.findall(unit.read()))


def fill(path):
    """Many files of one project. Put there by requests they would take a minute."""
    names = [f"small-1.{number}.tar.gz" for number in range(FILES)]
    with closing(sqlite3.connect(path)) as database, database:
        database.execute("INSERT INTO names (name, state, shown, quota, charged, live, last_upload) "
                         "VALUES ('small', 1, 'small', ?, ?, ?, 1)", (1 << 40, FILES * LENGTH, FILES))
        database.execute("INSERT INTO owners (name, user) VALUES ('small', 'office')")
        database.executemany("INSERT INTO files (file, name, rel, digest, size, requires, live) "
                             "VALUES (?, 'small', '1.0', randomblob(32), ?, '', 1)", [(it, LENGTH) for it in names])
        database.executemany("INSERT INTO blobs (file, body) VALUES (?, randomblob(?))", [(it, LENGTH) for it in names])


def kilobytes(process, row):
    with open(f"/proc/{process.pid}/status", encoding="ascii") as kept:
        return next(int(it.split()[1]) for it in kept if it.startswith(f"{row}:"))


@pytest.mark.slow
def test_a_start_over_small_files_gives_its_memory_back(program, index_file):
    fill(index_file)
    with Index(program, path=index_file, patience=120, setting=of_unit()) as index:
        accepted(index.claim("other"))
        stays, most = (kilobytes(index.process, row) for row in ("VmRSS", "VmHWM"))
    assert most > os.path.getsize(index_file) / 1024, "the start held no rows"
    assert stays < MOST_STAYS * most, f"{stays} KiB of {most} stay"
