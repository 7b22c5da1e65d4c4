"""Logs of SQLite as the program leaves them, by a writer of their own: commits of pages, each with sums and a gate."""
from __future__ import annotations

import struct

HEAD, FRONT, SALT = 32, 24, bytes([0x5a, 2, 3, 4, 5, 6, 7, 8])
OPEN, SHUT = SALT[:1], bytes([SALT[0] ^ 1])


def summed(big: bool, start: tuple[int, int], data: bytes) -> tuple[int, int]:
    first, second = start
    for at in range(0, len(data), 8):
        one, two = struct.unpack_from(">2I" if big else "<2I", data, at)
        first = (first + one + second) % 2 ** 32
        second = (second + two + first) % 2 ** 32
    return first, second


def log_of(commits: list[int], size: int = 512, big: bool = True, magic: int = 0x377f0682) -> bytes:
    """A log of commits of so many pages each. The pages of all are different."""
    head = struct.pack(">4I", magic + big, 3007000, size, 1) + SALT
    sums = summed(big, (0, 0), head)
    data, page = head + struct.pack(">2I", *sums), 0
    for pages in commits:
        for number in range(1, pages + 1):
            page += 1
            front = struct.pack(">2I", page, page if number == pages else 0)
            body = bytes([page % 251, 7]) * (size // 2)
            sums = summed(big, summed(big, sums, front), body)
            data += front + SALT + struct.pack(">2I", *sums) + body
    return data


def place(frame: int, size: int = 512) -> int:
    """Where a frame begins."""
    return HEAD + frame * (FRONT + size)


def flipped(log: bytes, at: int, bit: int = 1) -> bytes:
    return log[:at] + bytes([log[at] ^ bit]) + log[at + 1:]
