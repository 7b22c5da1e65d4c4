"""Wheels whose METADATA is much longer than they are, and one of very many entries, made without that much memory."""
from __future__ import annotations

import bz2
import functools
import lzma
import struct
import zipfile
import zlib

START, MIB = b"Metadata-Version: 2.1\nName: bomb\nVersion: 1.0\nSummary: ", 1 << 20
LONG = 1 << 30
NAME = b"bomb-1.0.dist-info/METADATA"
ENTRIES = 160_000
BLOCK, END = 0x314159265359, 0x177245385090


def deflated() -> bytes:
    packer = zlib.compressobj(6, zlib.DEFLATED, -15)
    packed = [packer.compress(START), *(packer.compress(b"x" * MIB) for _ in range(LONG // MIB)), packer.flush()]
    return b"".join(packed)


def by_lzma() -> bytes:
    """As zipfile reads it: a version, the length of the properties, these, and the stream."""
    filters = [{"id": lzma.FILTER_LZMA1, "preset": 0, "dict_size": 1 << 16}]
    packer = lzma.LZMACompressor(lzma.FORMAT_RAW, filters=filters)
    packed = [packer.compress(START), *(packer.compress(b"x" * MIB) for _ in range(LONG // MIB)), packer.flush()]
    return struct.pack("<BBHBL", 9, 4, 5, 0x5D, 1 << 16) + b"".join(packed)


def by_bzip2(parts: int = 32) -> bytes:
    """One stream with the same block so many times: each block is a stretch of bits, with a sum of its own."""
    packed = bz2.compress(b"x" * (LONG // parts), 9)
    bits = int.from_bytes(packed, "big")
    pad = next(it for it in range(8) if bits >> it + 32 & (1 << 48) - 1 == END)
    length = 8 * len(packed) - 32 - pad - 80
    block = bits >> pad + 80 & (1 << length) - 1
    assert block >> length - 48 == BLOCK
    one, whole, made = block >> length - 80 & 0xFFFFFFFF, 0, int.from_bytes(b"BZh9", "big")
    for _ in range(parts):
        whole = (whole << 1 & 0xFFFFFFFF | whole >> 31) ^ one
        made = made << length | block
    made = (made << 48 | END) << 32 | whole
    size = 32 + parts * length + 80
    return (made << -size % 8).to_bytes((size + 7) // 8, "big")


def entry(method: int, packed: bytes, size: int, name: bytes = NAME, at: int = 0) -> tuple[bytes, bytes]:
    """What stands of an entry in its place, and in the directory. The sum counts only for who reads to the end."""
    total = zlib.crc32(packed) if method == zipfile.ZIP_STORED else 0
    common = struct.pack("<5H3L2H", 20, 0, method, 0, 33, total, len(packed), size, len(name), 0)
    local = b"PK\3\4" + common + name + packed
    return local, b"PK\1\2" + struct.pack("<H", 20) + common + struct.pack("<3H2L", 0, 0, 0, 0, at) + name


def archive(*entries: tuple[bytes, bytes]) -> bytes:
    places, directory = b"".join(it for it, _ in entries), b"".join(it for _, it in entries)
    number = min(len(entries), 0xFFFF)
    return places + directory + b"PK\5\6" + struct.pack("<4H2LH", 0, 0, number, number, len(directory), len(places), 0)


def many() -> bytes:
    """A wheel of 160,000 empty files, and its METADATA behind them."""
    made, at = [], 0
    for number in range(ENTRIES):
        made.append(entry(zipfile.ZIP_STORED, b"", 0, b"%06d" % number, at))
        at += len(made[-1][0])
    text = START + b"many\n"
    return archive(*made, entry(zipfile.ZIP_STORED, text, len(text), NAME, at))


@functools.cache
def bombs() -> dict[str, bytes]:
    """The wheels by what they are called."""
    return {"bzip2": archive(entry(zipfile.ZIP_BZIP2, by_bzip2(), LONG)),
            "lzma": archive(entry(zipfile.ZIP_LZMA, by_lzma(), LONG)),
            "deflate": archive(entry(zipfile.ZIP_DEFLATED, deflated(), LONG)), "many": many()}
