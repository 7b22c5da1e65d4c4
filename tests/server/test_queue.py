"""Requests wait in nginx for their turn, so that no more reach the index at once than its queue has places."""
from __future__ import annotations

import asyncio
import itertools
import time
from collections import Counter
from contextlib import contextmanager

import pytest
from support.server.front import Front
from support.server.waits import wait_for
from support.serving import JSON_PAGE, accepted

NUMBERS = itertools.count()
RATE, BURST, CROWD, A_SECOND = "rate=3000r/s", "burst=3000", 150, 100
# a crowd takes more of them than Debian lets a worker have
CONNECTIONS = "worker_connections 768", "worker_connections 4096"


@contextmanager
def front_with(folder, certificate, index, rate, burst):
    """nginx that has no more than this rate reach the index."""
    made = Front(f"{folder}/queue", certificate, index.port, is_plain=True)
    made.put("conf.d/a.conf", "log_format turns '$limit_req_status';\n")
    made.put("index/server.d/turns.conf", f"access_log {made.folder}/turns.log turns;\n")
    for name, changes in (("conf.d/packages.conf", ((RATE, rate), (BURST, burst))), ("nginx.conf", (CONNECTIONS,))):
        with open(f"{made.folder}/{name}", encoding="utf-8") as kept:
            text = kept.read()
        for old, new in changes:
            assert old in text
            text = text.replace(old, new)
        with open(f"{made.folder}/{name}", "w", encoding="utf-8") as kept:
            kept.write(text)
    with made:
        yield made


async def ask(port, method, path):
    """The status of a reply."""
    reader, writer = await asyncio.open_connection("127.0.0.1", port)
    head = f"{method} {path} HTTP/1.1\r\nHost: 127.0.0.1\r\nAccept: {JSON_PAGE}\r\nContent-Length: 0\r\n"
    writer.write(f"{head}Connection: close\r\n\r\n".encode())
    try:
        return int((await asyncio.wait_for(reader.read(), 120)).split()[1])
    finally:
        writer.close()


async def ask_in_turn(port, requests):
    return [await ask(port, *it) for it in requests]


async def ask_at_once(port, requests):
    return await asyncio.gather(*(ask(port, *it) for it in requests))


def turns(front):
    """What nginx has logged of each request: whether it waited."""
    with open(f"{front.folder}/turns.log", encoding="ascii") as lines:
        return lines.read().split()


COUNTED = {
    "standings": lambda: ("GET", f"/names/n{next(NUMBERS)}"),
    "pages that are not kept": lambda: ("GET", f"/simple/n{next(NUMBERS)}/"),
    "changes": lambda: ("POST", "/requests"),
    "uploads": lambda: ("PUT", f"/files/frob/frob-1.{next(NUMBERS)}.tar.gz"),
    "deletions": lambda: ("DELETE", f"/files/frob/frob-1.{next(NUMBERS)}.tar.gz"),
    "what leads nowhere": lambda: ("GET", f"/x{next(NUMBERS)}"),
}


@pytest.mark.parametrize("kind", COUNTED)
def test_what_the_index_answers_is_counted(kind, kept_index, certificate, folder):
    """Two a minute are let through here, and the others are asked to come again."""
    with front_with(folder, certificate, kept_index, "rate=1r/m", "burst=1 nodelay") as front:
        found = asyncio.run(ask_in_turn(front.port, [COUNTED[kind]() for _ in range(4)]))
    assert 503 not in found[:2] and found[2:] == [503, 503], found


@pytest.mark.parametrize("path", ["/files/frob/frob-1.0.tar.gz", "/simple/frob/", "/health"])
def test_what_nginx_keeps_and_a_check_of_health_are_not_counted(path, kept_index, certificate, folder):
    accepted(kept_index.claim("frob"))
    accepted(kept_index.upload("frob", "frob-1.0.tar.gz", b"abc"))
    with front_with(folder, certificate, kept_index, "rate=1r/m", "burst=1 nodelay") as front:
        # a page is kept for a second: while the queue is shut nginx goes on with the page that it kept
        found = asyncio.run(ask_in_turn(front.port, [("GET", path)] * 8))
    assert found == [200] * 8


def test_a_crowd_waits_for_its_turn_and_all_are_answered(kept_index, certificate, folder):
    """No machine is so quick that a crowd is through before its turns have come."""
    with front_with(folder, certificate, kept_index, f"rate={A_SECOND}r/s", BURST) as front:
        begun = time.monotonic()
        found = Counter(asyncio.run(ask_at_once(front.port, [COUNTED["standings"]() for _ in range(CROWD)])))
        took = time.monotonic() - begun
        assert wait_for(lambda: len(turns(front)) == CROWD), turns(front)
        # a busy machine may take as long without a queue
        assert "DELAYED" in turns(front)
    assert found == {200: CROWD}
    assert took > 0.95 * (CROWD - 1) / A_SECOND, f"{took:.2f} s"
