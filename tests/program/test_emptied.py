"""A database file that was emptied or moved away is refused while its log may have the last changes, and both stay."""
import os

import pytest
from support.serving import Index
from support.subcommands import PATHS, SUMS, End, words_of

EMPTIED = "empty, but the log beside it is not"
INITS = "init", SUMS


@pytest.fixture
def path(folder):
    """Where a database could be, and nothing is."""
    return f"{folder}/index.db"


def read(path):
    with open(path, "rb") as kept:
        return kept.read()


def write(path, data):
    with open(path, "wb") as made:
        made.write(data)


@pytest.fixture
def lost(program, path):
    """An index that a signal ended: what it acknowledged last is in its log alone."""
    with Index(program, path=path) as index:
        index.claim("frob")
    assert b"frob" not in read(path)
    return path


def test_an_emptied_file_beside_its_log_is_refused_and_both_stay(refused, end, lost):
    whole, log = read(lost), read(f"{lost}-wal")
    os.truncate(lost, 0)
    refused(lost, EMPTIED, PATHS)
    assert read(f"{lost}-wal") == log
    write(lost, whole)
    assert b"frob" in end("report", "--db", lost).output


@pytest.mark.parametrize("job", INITS)
def test_init_keeps_the_log_of_a_file_that_was_moved_away(end, lost, folder, job):
    log = read(f"{lost}-wal")
    os.rename(lost, f"{folder}/moved.db")
    assert end(*words_of(job, lost)) == End(1, b"", f"index: Store\nindex: {lost}: {EMPTIED}\n".encode())
    assert read(f"{lost}-wal") == log
    os.rename(f"{folder}/moved.db", lost)
    assert b"frob" in end("report", "--db", lost).output


@pytest.mark.parametrize("job", INITS)
@pytest.mark.parametrize("length, is_made", [(0, True), (41, True), (567, True), (568, False)])
def test_init_beside_a_log_that_has_room_for_a_page(end, path, job, length, is_made):
    """A log begins with 32 bytes, and each page in it, of 512 bytes or more, with 24."""
    write(f"{path}-wal", bytes(length))
    assert end(*words_of(job, path)).output == (b"created\n" if is_made else b"")
