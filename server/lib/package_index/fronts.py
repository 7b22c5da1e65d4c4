"""Several nginx before one index: each writes a list of what was removed through it, and reads those of the others as
they grow."""
from __future__ import annotations

import hashlib
import http.client
import os
import socket
import ssl
import time
from contextlib import closing
from typing import Iterator, List, NamedTuple, Optional, Tuple

from package_index.disk import sync
from package_index.ends import Refused, say
from package_index.front import Front, connect

# where nginx gives out its own list, by server/nginx/fronts.conf
ADDRESS = "/fronts/removed"
PAUSE, PATIENCE = 1, 10
WHY = {403: "its fronts.conf does not allow this machine", 404: "it has no fronts.conf, or no index-uncache-follow"}


class Place(NamedTuple):
    """Up to where a list was read: where its last line begins, and the digest of that. Another list that nginx has in
    the place of the first has another line there."""
    begin: int
    digest: str


def begin_list(path: str) -> None:
    """Makes an empty list if there is none."""
    with open(path, "ab"):
        pass
    sync(os.path.dirname(os.path.abspath(path)))


def add_line(path: str, line: str) -> None:
    """Adds a line to a list, and waits until it is on the disk. A line of which a full disk took a part is ended."""
    with open(path, "ab+") as kept:
        kept.seek(max(kept.seek(0, os.SEEK_END) - 1, 0))
        is_whole = kept.read(1) in (b"", b"\n")
        kept.write(("" if is_whole else "\n").encode() + line.rstrip("\n").encode() + b"\n")
        kept.flush()
        os.fsync(kept.fileno())


def fetched(front: Front, begin: int, trust: ssl.SSLContext) -> bytes:
    """The list of another nginx from this byte on, or nothing if it is shorter."""
    with closing(http.client.HTTPConnection(front.host)) as connection:
        connection.sock = connect(front, trust, PATIENCE)
        connection.request("GET", ADDRESS, headers={"Range": f"bytes={begin}-"})
        reply = connection.getresponse()
        body = reply.read()
    if reply.status not in (200, 206, http.client.REQUESTED_RANGE_NOT_SATISFIABLE):
        raise Refused(f"it answers {reply.status}: {WHY.get(reply.status, 'is it an nginx of this index?')}")
    return {200: body[begin:], 206: body}.get(reply.status, b"")


def reason(end: Exception) -> str:
    """Why another nginx gave no list."""
    if isinstance(end, Refused):
        return str(end)
    # a packet that systemd keeps back is lost
    is_lost = isinstance(end, (PermissionError, socket.timeout))
    return f"{end!r}: is it off, or not in other-fronts.conf?" if is_lost else repr(end)


def lines_in(read: bytes, place: Optional[Place]) -> Optional[List[Tuple[str, Place]]]:
    """The whole lines behind a place in what was read from there on, each with its own place. None if the line of the
    place is another one."""
    found, begin = [], place.begin if place else 0
    for line in read.split(b"\n")[:-1]:
        found.append((line.decode("utf-8", "replace"), Place(begin, hashlib.sha256(line).hexdigest())))
        begin += len(line) + 1
    if not place:
        return found
    return found[1:] if found and found[0][1] == place else None


def lines_of_front(front: Front, place: Optional[Place], patience: float) -> Iterator[Tuple[str, Optional[Place]]]:
    """The lines of the list of another nginx from this place on, and for ever those that come. An empty line says that
    there is none now. If it is another list, all of that is read. Refuses if there is none for so many seconds."""
    trust, until, is_told = ssl.create_default_context(), time.monotonic() + patience, False
    while True:
        try:
            lines = lines_in(fetched(front, place.begin if place else 0, trust), place)
        except (OSError, http.client.HTTPException, Refused) as end:
            why = f"no list of what {front.address} has removed: {reason(end)}"
            if time.monotonic() >= until:
                raise Refused(why) from None
            if not is_told:
                say("index-uncache-follow", f"{why}; asking for {patience:.0f} s")
            is_told = True
        else:
            until, is_told = time.monotonic() + patience, False
            if lines is None:
                place = None
                continue
            for line, place in lines:
                yield line, place
        yield "", place
        time.sleep(PAUSE)
