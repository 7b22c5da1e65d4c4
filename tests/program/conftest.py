"""What the tests of the built program may ask for beside what every test may."""
import os

import pytest
from support.places import TOP
from support.failing import Failing
from support.refusals import Refusals
from support.subcommands import WORKING, End, end_of, words_of


@pytest.fixture
def end(program):
    """How the program ends: `end("check", "--db", path)` is its status, its output and its standard error."""
    return lambda *words, **how: end_of(program, *words, **how)


@pytest.fixture(scope="session")
def is_proved(program):
    """Whether the program was proved. One that was not has checks at run time, and some of it is slower."""
    return b"NOT PROVED" not in end_of(program, "--version").output


@pytest.fixture(scope="session")
def stored_lines():
    """The lines of the run that the gate makes of the program."""
    with open(f"{TOP}/crates/index/stdin", "rb") as stored:
        return stored.read()


@pytest.fixture(scope="session")
def stored_answers():
    """What that run prints."""
    with open(f"{TOP}/crates/index/stdout", "rb") as stored:
        return stored.read()


@pytest.fixture
def failing(folder):
    """Calls of the system that fail, or are counted."""
    return Failing(folder)


@pytest.fixture
def refusals(folder):
    """Allocations that are refused, or are counted."""
    return Refusals(folder)


def store_at(path, cause):
    """What stands on standard error if a database fails so, or for no cause that is known."""
    return f"index: Store\nindex: {path}: {cause}\n".encode() if cause else b"index: Store\n"


def bytes_at(path):
    """The bytes of a regular file, or whether something else is there. Of one that this user may not read, its size
    and the time of its last change."""
    if not os.path.isfile(path):
        return os.path.lexists(path)
    try:
        with open(path, "rb") as file:
            return file.read()
    except PermissionError:
        return os.stat(path)[6:9:2]


@pytest.fixture
def refused(program, looked):
    """`refused(path, cause)`: subcommands on this path end as `Store`, with this cause and the path on a second line,
    or with no second line; and what is there stays as it was."""
    def each(path, cause, jobs=WORKING, by=(), setting=None, program=program):
        was = bytes_at(path)
        for job in jobs:
            first, *words = *by, program, *words_of(job, path)
            wanted, ended = End(1, b"", store_at(path, cause)), end_of(first, *words, setting=setting)
            looked(ended == wanted, job, ended, wanted)
        looked(bytes_at(path) == was, path, "is as it was")

    return each
