"""Ranges of a file that become holes, on the file system of the tests."""
import errno
import os

import pytest
from hypothesis import HealthCheck, given, settings
from hypothesis import strategies as st
from support.library import carried, free_ranges, holes
from support.planted import catches
from support.unit import raises

BLOCK = free_ranges.BLOCK
SIZE = 12 * BLOCK


@pytest.fixture(autouse=True)
def without_waits(monkeypatch):
    """The disk is not waited for: no test cuts the power."""
    for name in ("fsync", "fdatasync"):
        monkeypatch.setattr(holes.os, name, lambda _: None)


@pytest.fixture(scope="module")
def path(tmp_path_factory):
    return str(tmp_path_factory.mktemp("holes") / "file")


@pytest.fixture
def file(path):
    """A file without a zero."""
    with open(path, "wb") as made:
        made.write(b"x" * SIZE)
    opened = os.open(path, os.O_RDWR)
    yield opened
    os.close(opened)


def zeros(file):
    """Where bytes are zeros."""
    return {at for at, it in enumerate(os.pread(file, SIZE + 1, 0)) if it == 0}


def data(file):
    return sum(end - begin for begin, end in holes.data_in(file, (0, SIZE)))


def test_whole_blocks_become_a_hole_and_the_rest_zeros(file):
    assert holes.punch(file, [(10, 3 * BLOCK + 7)]) == (2 * BLOCK, 0)
    assert zeros(file) == {*range(10, 3 * BLOCK + 7)} and os.fstat(file).st_size == SIZE
    assert data(file) == SIZE - 2 * BLOCK


@catches("server/lib/package_index/holes.py", "        overwrite(file, free)\n", "        pass\n")
@catches("server/lib/package_index/holes.py",
         "at = min(os.lseek(file, found, os.SEEK_HOLE), end)", "at = os.lseek(file, found, os.SEEK_HOLE)")
@catches("server/lib/package_index/holes.py", "                begin += len(piece)", "                begin += 0")
@settings(suppress_health_check=[HealthCheck.function_scoped_fixture], max_examples=60, deadline=None)
@given(st.lists(st.integers(0, SIZE), max_size=12, unique=True).map(sorted), st.integers(1, 3 * BLOCK))
def test_no_byte_of_another_range_changes(path, monkeypatch, edges, piece):
    monkeypatch.setattr(holes, "pieces", lambda file, at, end: (
        os.pread(file, min(piece, end - it), it) for it in range(at, end, piece)))
    with open(path, "wb") as made:
        made.write(b"x" * SIZE)
    free = list(zip(edges[::2], edges[1::2]))
    with open(path, "r+b") as opened:
        done = holes.punch(opened.fileno(), iter(free))
        assert zeros(opened.fileno()) == {at for begin, end in free for at in range(begin, end)}
        blocks = [free_ranges.whole_blocks(it) for it in free]
        assert done.given == sum(max(0, end - begin) for begin, end in blocks) == SIZE - data(opened.fileno())


@catches("server/lib/package_index/holes.py", 'if piece.strip(b"\\0"):', "if piece:")
def test_what_was_punched_is_neither_written_nor_given_back_again(file, monkeypatch):
    free = [(10, 3 * BLOCK + 7), (5 * BLOCK, 6 * BLOCK)]
    assert holes.punch(file, free).given == 3 * BLOCK
    monkeypatch.setattr(holes, "write_at", raises(AssertionError("written again")))
    monkeypatch.setattr(holes, "give_back", raises(AssertionError("given back again")))
    assert holes.punch(file, free) == (0, 0)


@catches("server/lib/package_index/holes.py", "    os.fdatasync(file)\n", "")
def test_bytes_are_overwritten_on_the_disk_before_a_block_is_given_back(file, monkeypatch):
    """A block that is given back keeps them until another file has it, and nobody can overwrite it any more."""
    order = []
    for module, name in ((holes, "write_at"), (holes.os, "fdatasync"), (holes.fcntl, "ioctl"), (holes.os, "fsync")):
        monkeypatch.setattr(module, name, lambda *it, name=name, real=getattr(module, name): (
            order.append(name), real(*it)))
    holes.punch(file, [(0, BLOCK), (2 * BLOCK, 3 * BLOCK)])
    assert order == ["write_at", "write_at", "fdatasync", "ioctl", "ioctl", "fsync"]


@catches("server/lib/package_index/holes.py", "list(islice(ranges, BATCH))", "list(ranges)")
def test_many_ranges_are_taken_some_at_a_time(file, monkeypatch):
    monkeypatch.setattr(holes, "BATCH", 2)
    seen, real = [], holes.punch_some
    monkeypatch.setattr(holes, "punch_some", lambda file, some: (seen.append(len(some)), real(file, some))[1])
    done = holes.punch(file, ((at * BLOCK, at * BLOCK + BLOCK) for at in range(0, 10, 2)))
    assert seen == [2, 2, 1] and done.given == 5 * BLOCK


@catches("server/lib/package_index/holes.py", "            return False", "            return True")
@pytest.mark.parametrize("code", [errno.EOPNOTSUPP, errno.ENOTTY, errno.ENOSYS])
def test_without_holes_the_bytes_are_overwritten_and_counted(file, monkeypatch, code):
    monkeypatch.setattr(holes.fcntl, "ioctl", raises(OSError(code, "no")))
    assert holes.punch(file, [(10, 3 * BLOCK + 7)]) == (0, 2 * BLOCK)
    assert zeros(file) == {*range(10, 3 * BLOCK + 7)}


def test_a_disk_that_fails_is_no_file_system_without_holes(file, monkeypatch):
    monkeypatch.setattr(holes.fcntl, "ioctl", raises(OSError(errno.EIO, "failed")))
    with pytest.raises(OSError, match="failed"):
        holes.punch(file, [(0, BLOCK)])


@catches("server/lib/package_index/holes.py", "        if no.errno not in FULL:", "        if no.errno:")
@pytest.mark.parametrize("code", [errno.ENOSPC, errno.EDQUOT])
def test_a_full_disk_gets_room_all_the_same(file, monkeypatch, code):
    monkeypatch.setattr(holes, "write_at", raises(OSError(code, "full")))
    assert holes.punch(file, [(10, 3 * BLOCK + 7)]) == (2 * BLOCK, 0)
    assert zeros(file) == {*range(BLOCK, 3 * BLOCK)}


@catches("server/lib/package_index/holes.py", "        if no.errno not in FULL:", "        if not no.errno:")
def test_a_disk_that_takes_no_zeros_is_told_and_nothing_is_given_back(file, monkeypatch):
    monkeypatch.setattr(holes, "write_at", raises(OSError(errno.EIO, "failed")))
    with pytest.raises(OSError, match="failed"):
        holes.punch(file, [(0, BLOCK)])
    assert data(file) == SIZE


def test_what_is_appended_meanwhile_stays(file, monkeypatch):
    """As by an index that serves: it writes above each range that is punched."""
    def write_at(opened, piece, at):
        os.pwrite(opened, b"new" * BLOCK, os.fstat(opened).st_size)
        carried.write_at(opened, piece, at)

    monkeypatch.setattr(holes, "write_at", write_at)
    holes.punch(file, [(0, BLOCK), (SIZE - BLOCK, SIZE)])
    assert os.pread(file, 7 * BLOCK, SIZE) == b"new" * 2 * BLOCK
