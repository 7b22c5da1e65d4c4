"""Clients that ask as pip does, many at once: a page, and a file of it, over TLS on a connection of each client's
own."""
from __future__ import annotations

import asyncio
import hashlib
import json
from collections import Counter
from collections.abc import Coroutine

from support.server.front import Front

PIP = "application/vnd.pypi.simple.v1+json, application/vnd.pypi.simple.v1+html; q=0.1, text/html; q=0.01"
# what pip asks for again, and how often
PASSING, AGAIN = (500, 503, 520, 527), 5


class Farm:
    """Clients of one front. `is_patient` ones ask again where pip does. `lost` counts what failed for good."""

    def __init__(self, front: Front, is_patient: bool):
        self.front, self.again = front, AGAIN if is_patient else 0
        self.replies: Counter = Counter()
        self.lost: Counter = Counter()

    async def ask(self, path: str, accept: str) -> tuple[int, bytes]:
        """The status and the body of one reply."""
        reader, writer = await asyncio.open_connection("127.0.0.1", self.front.port, ssl=self.front.trust)
        try:
            head = f"GET {path} HTTP/1.1\r\nHost: 127.0.0.1\r\nAccept: {accept}\r\nConnection: close\r\n\r\n"
            writer.write(head.encode())
            await writer.drain()
            reply = await reader.read()
        finally:
            writer.close()
        first, _, body = reply.partition(b"\r\n\r\n")
        if b"transfer-encoding: chunked" in first.lower():
            body = unchunked(body)
        return int(first.split()[1]), body

    async def get(self, path: str, accept: str = PIP) -> bytes | None:
        """The body of a reply of status 200, or nothing if it failed for good."""
        for trial in range(self.again + 1):
            status: int | str
            try:
                status, body = await asyncio.wait_for(self.ask(path, accept), 60)
            except (OSError, EOFError, IndexError, ValueError, asyncio.TimeoutError) as end:
                status, body = type(end).__name__, b""
            self.replies[status] += 1
            if status == 200:
                return body
            if status not in PASSING and not isinstance(status, str):
                break
            if trial < self.again:
                await asyncio.sleep(0.25 * 2 ** trial)
        self.lost[path.split("/")[1], status] += 1
        return None

    async def takes(self, project: str, accept: str = PIP) -> None:
        """A page as JSON, and its last file, whose bytes have to have the digest that the page tells."""
        page = await self.get(f"/simple/{project}/", accept)
        if page is None:
            return
        file = json.loads(page)["files"][-1]
        body = await self.get(file["url"])
        if body is not None and hashlib.sha256(body).hexdigest() != file["hashes"]["sha256"]:
            self.lost["digest", file["filename"]] += 1

    def run(self, *clients: Coroutine) -> None:
        """Runs these to their ends, all at once."""
        async def all_of() -> None:
            await asyncio.gather(*clients)
        asyncio.run(all_of())


def unchunked(body: bytes) -> bytes:
    """The body of a reply that came in chunks."""
    parts = []
    while body:
        length, _, body = body.partition(b"\r\n")
        if not int(length, 16):
            break
        parts.append(body[:int(length, 16)])
        body = body[int(length, 16) + 2:]
    return b"".join(parts)
