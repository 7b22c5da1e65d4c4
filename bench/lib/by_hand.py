"""What bench measures only if it is asked to: an index of a million files, and starts side by side."""
import os
import shutil
import sqlite3
import tempfile
import time
from concurrent.futures import ThreadPoolExecutor
from contextlib import ExitStack, closing

from lib.figures import goal, line, load, median, memory_of
from lib.on_disk import MEBIBYTE, changed, file_name, page_time, row_count
from lib.root import asked_first
from support.serving import Index, make_index, sha256

PROJECTS, FILES, BODY = 10_000, 100, bytes(100)
# bytes a file that may be taken at most while the index opens, and microseconds a row
MOST_BYTES, MOST_MICROSECONDS = 400, 15
# indexes that start, and the files of 1 MiB of each
STARTS, LARGE = 4, 256
# of the time that they take one after the other, on four processors
MOST_OF_TURNS = 0.6


def fill(path, projects, files, body):
    """Adds projects `other0`, .. that have so many files each, of these bytes."""
    digest, size = bytes.fromhex(sha256(body)), len(body)
    with closing(sqlite3.connect(path)) as database:
        for number in range(projects):
            name = f"other{number}"
            row = name, 1 << 40, files * size, files
            database.execute("INSERT INTO names VALUES (?1, 1, ?1, ?2, ?3, ?4, 1)", row)
            database.execute("INSERT INTO owners VALUES (?, 'office')", (name,))
            made = [(file_name(name, it), f"1.{it}") for it in range(files)]
            database.executemany("INSERT INTO files VALUES (?, ?, ?, ?, ?, '', 1)",
                                 [(file, name, version, digest, size) for file, version in made])
            database.executemany("INSERT INTO blobs VALUES (?, ?)", [(file, body) for file, _ in made])
        database.commit()
    return path


def bench_million(program, projects=PROJECTS, files=FILES):
    with tempfile.TemporaryDirectory() as folder:
        path = fill(make_index(program, f"{folder}/index.db"), projects, files, BODY)
        rows, begun = row_count(path), time.monotonic()
        with Index(program, path=path, patience=600) as index:
            each = 1e6 * (time.monotonic() - begun) / rows
            most, stays = (1024 * memory_of(index.process, row) for row in ("VmHWM", "VmRSS"))
            line("million", f"{projects * files:,} files of {len(BODY)} bytes: opened at {each:.1f} us a row",
                 goal(each, most=MOST_MICROSECONDS), f"at most {most / MEBIBYTE:.0f} MiB of memory, then "
                 f"{stays / MEBIBYTE:.0f}", goal(round(most / projects / files), most=MOST_BYTES), load())
            claim = median(changed, index, lambda number: {"do": "claim", "name": f"new{number}"})
            line("", f"claim: {claim:.2f} ms", f"page of {files} files, asked first: {median(page_time, index):.2f} ms",
                 f"page of {projects:,} names, asked first: {median(asked_first, index, projects):.1f} ms")


def start_time(program, paths):
    """The seconds until an index serves each of these databases, if they start at once."""
    indexes, begun = [Index(program, path=path, patience=600) for path in paths], time.monotonic()
    with ExitStack() as running:
        with ThreadPoolExecutor(len(indexes)) as starting:
            list(starting.map(running.enter_context, indexes))
        return time.monotonic() - begun


def bench_starts(program, count=STARTS, mebibytes=LARGE):
    with tempfile.TemporaryDirectory() as folder:
        first = fill(make_index(program, f"{folder}/0.db"), 1, mebibytes, os.urandom(MEBIBYTE))
        paths = [first, *(shutil.copy(first, f"{folder}/{number}.db") for number in range(1, count))]
        turns = sum(start_time(program, [path]) for path in paths)
        at_once = start_time(program, paths)
    line("starts", f"{count} indexes of {mebibytes} MiB: at once {at_once:.1f} s, one after the other {turns:.1f}",
         f"ratio {at_once / turns:.2f}", goal(round(at_once / turns, 2), most=MOST_OF_TURNS), load())
