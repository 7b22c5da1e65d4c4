"""Metadata inside wheels and source archives. A small archive may hold texts of any length, so each is bounded."""
from __future__ import annotations

import email.message
import email.parser
import gzip
import re
import tarfile
import zipfile
from typing import IO, Any, List, Optional, cast

# of a text that is read, of an archive once it is unpacked, and of the files in it
MOST_TEXT, MOST_UNPACKED, MOST_FILES = 4 << 20, 1 << 30, 200_000
# the methods by which wheels are made, of which zipfile decompresses no more than is asked for: of bzip2 and LZMA it
# decompresses all that it has read, and a KiB of these can hold a GiB
STEADY = zipfile.ZIP_STORED, zipfile.ZIP_DEFLATED
METADATA, PKG_INFO = re.compile(r"[^/]+\.dist-info/METADATA"), re.compile(r"(\./)?[^/]+/PKG-INFO")


class Damaged(Exception):
    """Why an archive can't be used."""


class Unpacked(gzip.GzipFile):
    """What a gzip file holds, up to a bound. tarfile reads a header as a whole, however long it says it is."""

    def read(self, size: Optional[int] = -1) -> bytes:
        if size is None or not 0 <= size <= MOST_TEXT or self.tell() + size > MOST_UNPACKED:
            raise Damaged("it unpacks to too much")
        return super().read(size)

    def seek(self, offset: int, whence: int = 0) -> int:
        if offset > MOST_UNPACKED:
            raise Damaged("it unpacks to too much")
        return super().seek(offset, whence)


def text_of(inside: IO[bytes]) -> bytes:
    text = inside.read(MOST_TEXT + 1)
    if len(text) > MOST_TEXT:
        raise Damaged(f"its metadata has more than {MOST_TEXT} bytes")
    return text


def texts_of_wheel(data: IO[bytes]) -> List[bytes]:
    with zipfile.ZipFile(data) as wheel:
        found = [it for it in wheel.infolist() if METADATA.fullmatch(it.filename)]
        texts = []
        for entry in found[:2]:
            if entry.compress_type not in STEADY:
                raise zipfile.BadZipFile("its metadata is compressed otherwise than by deflate")
            with wheel.open(entry) as inside:
                texts.append(text_of(inside))
        return texts


def texts_of_source(data: IO[bytes]) -> List[bytes]:
    """The same of a source archive. It is compressed by gzip: pip takes nothing else at this name."""
    texts: List[bytes] = []
    with Unpacked(fileobj=data) as unpacked, tarfile.open(fileobj=cast(IO[bytes], unpacked), mode="r:") as archive:
        for _ in range(MOST_FILES):
            it = archive.next()
            if it is None or len(texts) > 1:
                return texts
            # it keeps each otherwise
            cast(Any, archive).members.clear()
            if it.isfile() and PKG_INFO.fullmatch(it.name):
                texts.append(text_of(cast(IO[bytes], archive.extractfile(it))))
    raise Damaged(f"it has more than {MOST_FILES} files")


def metadata(file: str, data: IO[bytes]) -> email.message.Message:
    """The headers of METADATA in a wheel, or of PKG-INFO in a source archive, of a file of this name."""
    texts = texts_of_wheel(data) if file.endswith(".whl") else texts_of_source(data)
    if len(texts) != 1:
        raise Damaged(f"it has {len(texts) or 'no'} files of metadata instead of one. Build it again.")
    return email.parser.HeaderParser().parsestr(texts[0].decode("utf-8"))
