"""The sum of each page of a database, in the bytes that the page leaves free at its end."""
from __future__ import annotations

import os
import struct

from package_index.database import sum_of
from package_index.ends import Refused

# of a database: where its header has the page size, the versions of its format, and the bytes that each page leaves
# free
SIZE, VERSIONS, FREE = slice(16, 18), slice(18, 20), 20
SUM = 8


def sum_of_page(page: bytes) -> bytes:
    """The sum of a page as SQLite's cksumvfs has it, over all but its last 8 bytes."""
    return struct.pack("<2I", *sum_of(False, (0, 0), page[:-SUM]))


def seal(path: str) -> None:
    """Writes the sum of each page into its end. Raises Refused if the pages have no room for it."""
    with open(path, "r+b") as file:
        head = file.read(100)
        size = int.from_bytes(head[SIZE], "big")
        size = 65536 if size == 1 else size
        if head[FREE] != SUM:
            raise Refused(f"sqlite3 made pages with {head[FREE]} free bytes in place of {SUM}")
        for at in range(0, os.path.getsize(path), size):
            file.seek(at)
            page = bytearray(file.read(size))
            if at == 0:
                # the index opens a database with a log
                page[VERSIONS] = b"\2\2"
            page[-SUM:] = sum_of_page(page)
            file.seek(at)
            file.write(page)
        file.flush()
        os.fsync(file.fileno())
