"""What is cached of files and pages is found again, the oldest file goes first, and all of it takes no more memory than
it may.

Whether an answer was cached shows in how many allocations the server makes for it, which no load of the machine
changes."""
import os
import sqlite3
from contextlib import closing

import pytest
from support.refusals import Messages, rests
from support.serving import JSON_PAGE, Index, sha256
from support.volumes import stored

MEBIBYTE = 1 << 20
# what is kept without --keep-recent
DEFAULT = 256 * MEBIBYTE
# of what a large file takes beside its bytes, and of what the system gives and takes in pages of its own
SLACK = 4 * MEBIBYTE
TYPES = {"JSON": JSON_PAGE, "HTML": "text/html", "HTML-of-version-1": "application/vnd.pypi.simple.v1+html"}
# rows of a page
MANY = 40


def path_of(number):
    return f"/files/frob/frob-{number}.tar.gz"


class Counted(Index):
    """A server whose allocations are counted, and which keeps up to so many bytes."""

    def __init__(self, program, path, refusals, keep):
        refusals.begin()
        self.refusals = refusals
        super().__init__(program, path=path, keep=keep, patience=60, setting=refusals.setting)

    def cost(self, path, **headers):
        """How many allocations the server makes for a look."""
        rests(self.process)
        before = self.refusals.numbers[0]
        status = self.ask("GET", path, **headers)[0]
        rests(self.process)
        assert status == 200, (path, status)
        return self.refusals.numbers[0] - before


def costs_of_files(program, path, refusals, keep, chance):
    """What looks at six files of a mebibyte cost, each at the first time, and by turns at the others; a change that
    concerns none of them comes between. At the end those at all six again, the newest first."""
    with Counted(program, path, refusals, keep) as index:
        index.claim("frob")
        for number in range(6):
            index.upload("frob", f"frob-{number}.tar.gz", chance.randbytes(MEBIBYTE))
        first = [index.cost(path_of(number)) for number in range(6)]
        index.claim("more")
        newest_first = [index.cost(path_of(number)) for number in (5, 4, 3, 2, 1, 0)]
        two = [index.cost(path_of(number)) for number in (0, 1) * 10]
        return first, newest_first, two


@pytest.mark.slow
def test_files_are_found_again_and_the_oldest_goes_first(program, folder, refusals, chance, looked):
    """Four of them are kept: behind six looks the last four, of which none is found anew when it is looked at again."""
    kept = costs_of_files(program, f"{folder}/kept.db", refusals, 4 * MEBIBYTE, chance)
    none = costs_of_files(program, f"{folder}/none.db", refusals, 0, chance)
    least = min(it for part in none for it in part)
    for name, costs in zip(("first looks", "the newest four", "two by turns"), (kept[0], kept[1][:4], kept[2][2:])):
        are_found = [it < least / 2 for it in costs]
        looked(are_found == [name != "first looks"] * len(costs), name, costs, least)
    looked(all(it >= least for it in kept[1][4:]), "the oldest two", kept[1], least)


def fill(path, names, files):
    """Adds these names, and the name `frob` with these files, that are the bytes `abc`."""
    digest, bodies = bytes.fromhex(sha256(b"abc")), stored(path, [b"abc"] * len(files))
    with closing(sqlite3.connect(path)) as database:
        held = [("frob", 1, "frob", 1 << 40, 3 * len(files), len(files), 11),
                *((name, 1, name, 1 << 30, 0, 0, None) for name in names)]
        database.executemany("INSERT INTO names VALUES (?, ?, ?, ?, ?, ?, ?)", held)
        database.executemany("INSERT INTO owners VALUES (?, 'office')", [(row[0],) for row in held])
        database.executemany("INSERT INTO files VALUES (?, ?, ?, ?, ?, ?, ?)",
                             [(file, "frob", file[5:-7], digest, 3, "", 1) for file in files])
        database.executemany("INSERT INTO blobs VALUES (?, ?)", zip(files, bodies))
        database.commit()


def names(count, width=1):
    return [f"n{number:0>{width}}" for number in range(count)]


def files(count, width=1):
    return [f"frob-{number:0>{width}}.tar.gz" for number in range(count)]


@pytest.mark.parametrize("accept", TYPES)
@pytest.mark.parametrize("path", ["/simple/", "/simple/frob/"], ids=["root-page", "page-of-a-project"])
def test_a_page_is_found_again(program, index_file, refusals, looked, path, accept):
    fill(index_file, names(MANY), files(MANY))
    costs = {}
    for keep in (8 * MEBIBYTE, 0):
        with Counted(program, index_file, refusals, keep) as index:
            costs[keep] = [index.cost(path, Accept=TYPES[accept]) for _ in range(5)]
    kept, none = costs.values()
    looked(kept[0] >= min(none), "at first it is made", kept, none)
    looked(max(kept[1:]) < min(none) / 2, "it is found again", kept, none)


# by path, names or files whose page has 250 bytes in HTML for each
LONG = {"/simple/": lambda count: (names(count, 110), []), "/simple/frob/": lambda count: ([], files(count, 60))}


@pytest.mark.parametrize("count, keep", [
    pytest.param(17_500, 8 * MEBIBYTE, id="above-four-mebibytes", marks=pytest.mark.slow),
    pytest.param(2_900, 730_000, id="as-long-as-all-that-is-cached")])
@pytest.mark.parametrize("path", LONG, ids=["root-page", "page-of-a-project"])
def test_a_long_page_is_found_again(program, index_file, refusals, looked, count, keep, path):
    fill(index_file, *LONG[path](count))
    with Counted(program, index_file, refusals, keep) as index:
        costs = [index.cost(path, Accept="text/html") for _ in range(3)]
    looked(max(costs[1:]) < costs[0] / 10, "it is found again", costs)


@pytest.mark.slow
def test_a_page_of_ten_mebibytes_is_found_again(program, index_file, refusals, looked):
    """Up to 64 MiB are gathered, if as much is cached."""
    fill(index_file, *LONG["/simple/frob/"](40_000))
    with Counted(program, index_file, refusals, 128 * MEBIBYTE) as index:
        first, again = [index.cost("/simple/frob/", Accept="text/html") for _ in range(2)]
    looked(again < first / 10, "it is found again", first, again)


@pytest.mark.parametrize("count", [100, pytest.param(1_000, marks=pytest.mark.slow)])
def test_so_many_pages_are_found_again(program, index_file, refusals, looked, count):
    """1,024 are cached."""
    fill(index_file, names(count), [])
    with Counted(program, index_file, refusals, None) as index:
        first, again = [sum(index.cost(f"/simple/{it}/", Accept=JSON_PAGE) for it in names(count)) for _ in range(2)]
    looked(again < first / 2, "they are found again", first, again)


@pytest.mark.parametrize("count", [100, pytest.param(1_000, marks=pytest.mark.slow)])
def test_so_many_files_are_found_again(program, index_file, refusals, looked, count):
    """1,024 are cached."""
    fill(index_file, [], files(count))
    with Counted(program, index_file, refusals, None) as index:
        first, again = [sum(index.cost(f"/files/frob/{it}") for it in files(count)) for _ in range(2)]
    looked(again < first / 2, "they are found again", first, again)


@pytest.mark.slow
def test_a_page_that_is_cut_is_told_by_one_line(program, index_file, refusals, looked):
    """It is above 4 MiB and not cached, so it is sent row by row; for one of the last rows there is no memory."""
    fill(index_file, *LONG["/simple/"](17_500))
    asked = b"GET /simple/ HTTP/1.1\r\nHost: x\r\nAccept: text/html\r\n\r\n"
    with Messages(program, index_file, refusals, 0) as index:
        before = refusals.numbers[0]
        whole, said = index.send(asked)
        # (after the rows that are gathered in vain, and those that are counted)
        refusals.refuse(5 * (refusals.numbers[0] - before) // 6)
        part, told = index.send(asked)
    looked(said == b"" and part and whole.startswith(part) and part != whole, "it is cut", len(whole), len(part), said)
    looked(told == b"index: connection: Cut\n", "it is told", told)


# memory

def fill_with_large_files(path, count):
    """Adds so many files of a mebibyte of the name `frob`."""
    with closing(sqlite3.connect(path)) as database:
        database.execute("INSERT INTO names VALUES ('frob', 1, 'frob', ?, ?, ?, 11)",
                         (1 << 40, count * MEBIBYTE, count))
        database.execute("INSERT INTO owners VALUES ('frob', 'office')")
        for number in range(count):
            body, file = os.urandom(MEBIBYTE), f"frob-{number}.tar.gz"
            row = file, "frob", f"{number}", bytes.fromhex(sha256(body)), MEBIBYTE, "", 1
            database.execute("INSERT INTO files VALUES (?, ?, ?, ?, ?, ?, ?)", row)
            database.execute("INSERT INTO blobs VALUES (?, ?)", (file, *stored(path, [body])))
        database.commit()
    return path


def peak(program, path, looks, keep):
    """The bytes that a server takes at most once it listens, which keeps up to so many, or as many as it likes."""
    with Index(program, path=path, keep=keep, patience=600) as index:
        with open(f"/proc/{index.process.pid}/clear_refs", "w") as refs:
            refs.write("5")
        for number in looks:
            status, _, body = index.ask("GET", path_of(number))
            assert (status, len(body)) == (200, MEBIBYTE)
        with open(f"/proc/{index.process.pid}/status") as kept:
            return 1024 * next(int(row.split()[1]) for row in kept if row.startswith("VmHWM:"))


# an index of so many files of a mebibyte is opened fast, also by a program that was not proved
FEW = 40
# by name --keep-recent, at least and at most how many bytes that takes, and how many files are looked at
KEPT = {"8-MiB": (8 * MEBIBYTE, 4 * MEBIBYTE, 8 * MEBIBYTE, FEW), "by-default": (None, DEFAULT // 2, DEFAULT, 300),
        "more-than-by-default": (300 * MEBIBYTE, 288 * MEBIBYTE, 300 * MEBIBYTE, 300)}


@pytest.mark.slow
@pytest.mark.timeout(1_800)
@pytest.mark.parametrize("kept", KEPT)
def test_what_is_kept_takes_as_much_memory_as_it_may_and_no_more(program, is_proved, index_file, looked, kept):
    """Many files are looked at, the last of them twice."""
    keep, least, most, count = KEPT[kept]
    if not is_proved and count > FEW:
        pytest.skip("a program that was not proved takes minutes to open so large an index")
    path = fill_with_large_files(index_file, count)
    none = peak(program, path, range(10), 0)
    taken = peak(program, path, [*range(count), *range(count - 20, count)], keep)
    looked(taken >= none + least, "it is kept", none, taken)
    looked(taken <= none + most + SLACK, "no more", none, taken)
