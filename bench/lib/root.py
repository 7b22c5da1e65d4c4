"""What bench measures of the page of all names, which is the longest: asked first, and asked again."""
import sqlite3
from contextlib import closing

from lib.at_once import message_of
from lib.figures import goal, line, load, median, processor_time
from support.running import new_folder
from support.serving import JSON_PAGE, Index, accepted, make_index, reply_to

# how many names, and the most milliseconds for their page when it is asked for first, and again
NAMES = (50_000, 50, 1), (250_000, 250, 3)
PAGE = message_of("GET", "/simple/", f"Accept: {JSON_PAGE}")


def page_time(index, length):
    """The milliseconds of a processor of the index for the page, which has this length at least."""
    before = processor_time(index.process)
    reply = reply_to(index.port, PAGE)
    if not reply.startswith(b"HTTP/1.1 200 ") or len(reply) < length:
        raise SystemExit(f"bench: the page of all names was answered {reply[:300]!r}")
    return 1000 * (processor_time(index.process) - before)


def asked_first(index, length, number):
    """A change lets the page go that is kept."""
    accepted(index.claim(f"more{number}"))
    return page_time(index, length)


def asked_again(index, length, _):
    return page_time(index, length)


def filled(program, folder, names):
    """A database of these names."""
    path = make_index(program, f"{folder}/names.db")
    with closing(sqlite3.connect(path)) as database:
        database.executemany("INSERT INTO names VALUES (?1, 1, ?1, 0, 0, 0, NULL)", ((name,) for name in names))
        database.executemany("INSERT INTO owners VALUES (?, 'office')", ((name,) for name in names))
        database.commit()
    return path


def bench_root(program):
    for count, first_most, again_most in NAMES:
        names = [f"name-{number:05}" for number in range(count)]
        length = sum(map(len, names))
        with new_folder() as folder, Index(program, path=filled(program, folder, names), patience=60) as index:
            first = median(asked_first, index, length)
            again = median(asked_again, index, length)
        line("root", f"{count:,} names, ms of a processor: asked first {first:.1f}", goal(first, most=first_most),
             f"again {again:.2f}", goal(again, most=again_most), load())
