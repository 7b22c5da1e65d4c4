"""Files that are uploaded: what is read and checked before the first goes out."""
from __future__ import annotations

import hashlib
import io
import os
import time
from contextlib import suppress
from typing import Callable, Dict, Iterable, Iterator, List, Optional, Sequence, Tuple

from indexctl.archives import Damaged, metadata
from indexctl.changes import Desk
from indexctl.ends import WRONG, Stop
from indexctl.terminal import Progress, note
from indexctl.transport import Request
from package_index.names import file_path, is_requires_python, normal, read_file_name

MOST_BYTES, PIECE, MOST_TEXT = 16_777_216, 1 << 18, 512
# what other indexes take
OTHER_ARCHIVES = (".zip", ".tar.bz2", ".tar.xz", ".egg")


class File:
    """A file that was read and checked. `data` are its bytes if it is not on this machine, and then `path` is its name.
    `requires` is its Requires-Python if that is known from elsewhere."""

    def __init__(self, path: str, data: Optional[bytes] = None, requires: Optional[str] = None) -> None:
        self.path, self.name, self.data = path, os.path.basename(path), data
        spelled = read_file_name(self.name)
        if self.name.endswith(OTHER_ARCHIVES):
            raise Stop(WRONG, f"{path}: the index takes .whl and .tar.gz alone. `python3 -m build` makes both.")
        if not spelled:
            raise Stop(WRONG, f"{path}: this is not the name of a wheel or of a .tar.gz.")
        self.project, self.is_wheel = spelled.project, spelled.is_wheel
        self.size = os.path.getsize(path) if data is None else len(data)
        if self.size > MOST_BYTES:
            raise Stop(WRONG, f"{path}: it has {self.size} bytes, and the index takes {MOST_BYTES} at most.")
        data = self.read()
        try:
            headers = metadata(self.name, io.BytesIO(data))
        except Damaged as end:
            raise Stop(WRONG, f"{path}: {end}") from end
        self.shown, self.digest = str(headers["Name"] or ""), hashlib.sha256(data).hexdigest()
        self.requires = " ".join((headers["Requires-Python"] or "").split()) if requires is None else requires
        if not self.is_wheel and self.shown and self.project.startswith(f"{normal(self.shown)}-"):
            raise Stop(WRONG, f"{path}: its version has a hyphen, at which a file name is cut. Build it with the "
                              "version as PEP 440 writes it, such as 1.0b1 for 1.0-beta1.")
        if normal(self.shown) != self.project:
            raise Stop(WRONG, f"{path}: the name inside is {self.shown!r}. The file name decides the project: build it "
                              "again.")
        if normal(headers["Version"] or "") != normal(spelled.version):
            note(f"note: {path}: the version inside is {headers['Version']!r}")
        self.check_requires()

    def read(self) -> bytes:
        if self.data is not None:
            return self.data
        with open(self.path, "rb") as kept:
            return kept.read()

    def check_requires(self) -> None:
        """Installers differ in what they do with a Requires-Python that can't be read, so none goes out."""
        text = self.requires
        if not text.isascii() or not text.isprintable() or len(text) > MOST_TEXT:
            raise Stop(WRONG, f"{self.path}: the index can't take its Requires-Python.")
        if not is_requires_python(text):
            raise Stop(WRONG, f"{self.path}: its Requires-Python is {text!r}, which is not a list such as `>=3.8, <4`.")

    def checked(self) -> bytes:
        """The bytes. Those that were not checked don't go out."""
        data = b""
        with suppress(OSError):
            data = self.read()
        if hashlib.sha256(data).hexdigest() != self.digest:
            raise Stop(WRONG, f"{self.path}: it changed since it was checked, and was not uploaded. Run this again.")
        return data

    def pieces(self) -> Iterator[bytes]:
        data = self.checked()
        for at in range(0, len(data), PIECE):
            yield data[at:at + PIECE]


def files_in(folder: str) -> List[str]:
    """The wheels and source archives of a folder. What else looks like an archive is passed over with a note."""
    inside = sorted(os.listdir(folder))
    taken = [os.path.join(folder, it) for it in inside if it.endswith((".whl", ".tar.gz"))]
    for it in inside:
        if it.endswith(OTHER_ARCHIVES):
            note(f"note: {os.path.join(folder, it)} is passed over: the index takes .whl and .tar.gz alone", "yellow")
    if not taken:
        raise Stop(WRONG, f"{folder}: no .whl and no .tar.gz is in this folder.")
    return taken


def read_file(path: str) -> File:
    """A file that was read and checked. What a damaged archive raises depends on how it is compressed."""
    try:
        return File(path)
    except Stop:
        raise
    except Exception as end:
        raise Stop(WRONG, f"{path}: it can't be read: {getattr(end, 'strerror', None) or end}") from end


def read_files(paths: Sequence[str]) -> Iterator[File]:
    """These files, with how many were read on a terminal."""
    with Progress("files that are checked", len(paths)) as progress:
        for path in paths:
            yield read_file(path)
            progress.step()


def files_of(paths: Sequence[str]) -> List[File]:
    """The files of these paths, wheels first. Nothing has gone out as long as this can fail."""
    for path in paths:
        if not os.path.exists(path):
            raise Stop(WRONG, f"{path}: there is no such file or folder.")
    found = [it for path in paths for it in (files_in(path) if os.path.isdir(path) else [path])]
    return sorted(read_files(found), key=lambda it: (not it.is_wheel, it.name))


def upload_of(file: File, pieces: Callable[[], Iterable[bytes]]) -> Tuple[Dict[str, object], Request]:
    """The upload of a file, as a row of a record and as a request with these bytes."""
    headers = {"X-Index-SHA256": file.digest, **({"X-Requires-Python": file.requires} if file.requires else {})}
    request = Request("PUT", file_path(file.project, file.name), tuple(headers.items()), pieces, file.size)
    return {"do": "upload", "file": file.name, "sha256": file.digest, "requires_python": file.requires}, request


def upload_file(desk: Desk, file: File, claims: bool) -> bool:
    """Uploads one file, and claims its name first if nobody holds it and `claims` is set. Gives whether it is there."""
    begun = time.monotonic()
    with Progress(file.name, file.size, is_bytes=True) as progress:
        row, request = upload_of(file, lambda: progress.sent(file.pieces()))
        status, answer = desk.send(file.name, row, request)
        if answer == "NoProject" and claims:
            if not desk.change(f"claim {file.shown}", {"do": "claim", "name": file.shown}):
                return False
            status, answer = desk.send(file.name, row, request)
    if status not in (200, 201):
        return desk.tell(file.name, row, status, answer)
    is_new = "uploaded" if status == 201 else "is there already"
    desk.say(f"{file.name}: {is_new}, {file.size} bytes in {time.monotonic() - begun:.2f} s",
             {**row, "status": status, "answer": answer})
    return True
