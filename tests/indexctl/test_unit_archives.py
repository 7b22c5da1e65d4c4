"""The metadata of archives, of which a hostile one may hold texts of any length."""
from __future__ import annotations

import gzip
import io
import tarfile
import zipfile

import pytest
from indexctl import archives
from indexctl.archives import Damaged, metadata
from support.planted import catches

TEXT = b"Metadata-Version: 2.1\nName: frob\nVersion: 1.0\n"


def source(*entries, mode="w:gz"):
    made = io.BytesIO()
    with tarfile.open(fileobj=made, mode=mode, format=tarfile.PAX_FORMAT) as archive:
        for path, data in entries:
            entry = tarfile.TarInfo(path)
            entry.size = len(data)
            archive.addfile(entry, io.BytesIO(data))
    return io.BytesIO(made.getvalue())


def wheel(text):
    made = io.BytesIO()
    with zipfile.ZipFile(made, "w", zipfile.ZIP_DEFLATED) as archive:
        archive.writestr("frob-1.0.dist-info/METADATA", text)
    return made


@pytest.mark.parametrize("more", [-1, 0])
def test_metadata_has_4_mib_at_most(more):
    text = TEXT + b"\n" + b"x" * (archives.MOST_TEXT - len(TEXT) - 1 + more)
    for name, data in (("a.whl", wheel(text)), ("a.tar.gz", source(("frob-1.0/PKG-INFO", text)))):
        assert metadata(name, data)["Name"] == "frob"


def test_longer_metadata_is_refused_unread():
    text = TEXT + b"\n" + b"x" * archives.MOST_TEXT
    for name, data in (("a.whl", wheel(text)), ("a.tar.gz", source(("frob-1.0/PKG-INFO", text)))):
        with pytest.raises(Damaged, match="its metadata has more than 4194304 bytes"):
            metadata(name, data)


@catches("indexctl/archives.py", "if size is None or not 0 <= size <= MOST_TEXT or self.tell() + size > MOST_UNPACKED:",
         "if False:", ("indexctl/archives.py", "if offset > MOST_UNPACKED:", "if False:"),
         also=["test_a_header_that_says_it_is_long_is_not_read"])
def test_what_unpacks_to_a_gibibyte_is_refused_before_it_is_unpacked(monkeypatch):
    assert archives.MOST_UNPACKED == 1 << 30
    monkeypatch.setattr(archives, "MOST_UNPACKED", 1 << 20)
    entries = ("frob-1.0/data", bytes(1 << 20)), ("frob-1.0/PKG-INFO", TEXT)
    with pytest.raises(Damaged, match="it unpacks to too much"):
        metadata("a.tar.gz", source(*entries))
    assert metadata("a.tar.gz", source(("frob-1.0/data", bytes(1 << 19)), entries[1]))["Name"] == "frob"


def test_a_header_that_says_it_is_long_is_not_read(monkeypatch):
    """A pax header is read as a whole by tarfile."""
    entry = tarfile.TarInfo("x")
    entry.type, entry.size = tarfile.XHDTYPE, archives.MOST_TEXT + 1
    with pytest.raises(Damaged, match="it unpacks to too much"):
        metadata("a.tar.gz", io.BytesIO(gzip.compress(entry.tobuf() + bytes(1024))))


def test_an_archive_has_a_bounded_number_of_files(monkeypatch):
    monkeypatch.setattr(archives, "MOST_FILES", 3)
    many = [(f"frob-1.0/{at}", b"") for at in range(2)] + [("frob-1.0/PKG-INFO", TEXT)]
    with pytest.raises(Damaged, match="it has more than 3 files"):
        metadata("a.tar.gz", source(*many))
    assert metadata("a.tar.gz", source(*many[1:]))["Name"] == "frob"


@pytest.mark.parametrize("method", [zipfile.ZIP_BZIP2, zipfile.ZIP_LZMA])
def test_what_zipfile_would_decompress_whole_is_not_opened(method):
    made = io.BytesIO()
    with zipfile.ZipFile(made, "w", method) as archive:
        archive.writestr("frob-1.0.dist-info/METADATA", TEXT)
    with pytest.raises(zipfile.BadZipFile, match="otherwise than by deflate"):
        metadata("a.whl", made)
