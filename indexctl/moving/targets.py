"""A project at the index, into which the files of a source are brought by several threads."""
from __future__ import annotations

import hashlib
import threading
from typing import Dict, List, Optional, Set

from indexctl.changes import Desk, Row
from indexctl.contents import FileRow, find_contents
from indexctl.ends import REFUSED, UNREACHED, Stop
from indexctl.moving.items import Item, Left, Project
from indexctl.moving.sources import Source
from indexctl.moving.web import Failure
from indexctl.refusals import hint_of
from indexctl.standings import Standing, find_standing
from indexctl.terminal import note
from indexctl.uploads import File, upload_of
from package_index.names import read_file_name

# of which each later file of the project would have the same
OF_PROJECT = ("NotOwner", "NoProject", "NameProhibited", "OverQuota")
IMPORTED, THERE, LEFT = "imported", "there", "left"


class Target:
    """A project with what is there of it. What is done with it is kept in `claimed`, `yanked` and `left`."""

    def __init__(self, desk: Desk, project: Project, is_dry: bool) -> None:
        self.desk, self.project, self.name, self.is_dry = desk, project, project.name, is_dry
        self.lock = threading.RLock()
        self.standing: Optional[Standing] = None
        # why nothing may be changed here; None as long as nobody has asked
        self.closed: Optional[str] = None
        self.there: Dict[str, FileRow] = {}
        self.left: List[Left] = []
        self.claimed = False
        self.yanked: List[str] = []
        self.settled: Set[str] = set()

    def look(self) -> Standing:
        """How the project stands, by a page that nobody has cached."""
        with self.lock:
            if self.standing is None:
                found = find_standing(self.desk.index, self.name)
                rows = find_contents(self.desk.index, self.name, is_fresh=True) if found.state == "held" else None
                self.there = {it.file: it for it in rows or []}
                self.standing = found
            return self.standing

    def why_closed(self) -> str:
        """Why nothing may be changed here, or an empty text. It changes nothing."""
        with self.lock:
            if self.closed is None:
                found = self.look()
                self.closed = ""
                if found.state == "prohibited":
                    self.closed = "the office has prohibited the name"
                elif found.state == "held" and self.desk.setting.token and not self.desk.is_owner(self.name):
                    self.closed = f"the name belongs to {', '.join(found.owners)}"
                elif found.case:
                    note(f"{self.name}: {found.case.candidate} has opened a case on this name, to {found.case.kind} "
                         "it. An upload ends it.", "yellow")
            return self.closed

    def ask(self, what: str, row: Row) -> str:
        """Why a change was refused, or an empty text."""
        return self.why(row, *self.desk.post(what, row))

    def why(self, row: Row, status: int, answer: str) -> str:
        if status in (200, 201):
            return ""
        sentence = f"{answer}. {hint_of(self.desk.index, answer, row)}".rstrip()
        if status == 401:
            raise Stop(REFUSED, sentence)
        if status >= 500:
            raise Stop(UNREACHED, f"{self.name}: {status} {sentence}")
        return sentence

    def claim(self, shown: str) -> str:
        """Claims the name if nobody holds it, once. Gives why it can't be had."""
        with self.lock:
            why = self.why_closed()
            if not why and self.look().state == "free" and not self.claimed:
                why = self.closed = self.ask(f"claim {shown}", {"do": "claim", "name": shown})
                self.claimed = not why
            return why

    def bring(self, source: Source, item: Item) -> str:
        """Brings one file, unless it is there. Gives what became of it."""
        try:
            is_new = self.brings(source, item)
        except Failure as end:
            return self.leave(item, str(end))
        spelled = read_file_name(item.file)
        self.yank(spelled.release if spelled else "")
        return IMPORTED if is_new else THERE

    def leave(self, item: Item, why: str) -> str:
        self.left.append(Left(item.told, why))
        return LEFT

    def brings(self, source: Source, item: Item) -> bool:
        """Whether a file was not there, and is now. One that has the same bytes is not fetched."""
        self.look()
        row, data, digest = self.there.get(item.file), None, item.sha256
        if row and not digest:
            data = source.bytes_of(item)
            digest = hashlib.sha256(data).hexdigest()
        if row and row.sha256 != digest:
            raise Failure("the index has other bytes at this name")
        if row:
            return False
        if self.why_closed():
            raise Failure(self.why_closed())
        if source.is_here or not self.is_dry:
            file = read_bytes(item, data or source.bytes_of(item))
            self.send(file)
        return True

    def send(self, file: File) -> None:
        if self.is_dry:
            return
        why = self.claim(self.project.shown or file.shown)
        if not why:
            row, request = upload_of(file, lambda: [file.read()])
            status, answer = self.desk.send(file.name, row, request)
            why = self.why(row, status, answer)
            if answer in OF_PROJECT:
                with self.lock:
                    self.closed = why
        if why:
            raise Failure(why)

    def yank(self, release: str) -> None:
        """Yanks a release of which a file is there, if the source does and the index does not."""
        reason = self.project.yanks.get(release)
        with self.lock:
            if reason is None or release in self.settled or self.is_dry:
                return
            self.settled.add(release)
        its = [row for file, row in self.there.items() if row.release == release]
        if not any(row.yanked is not None for row in its):
            why = self.why_closed() or self.ask(f"yank {self.name} {release}", {
                "do": "yank", "name": self.name, "release": release, "reason": reason})
            if why:
                self.left.append(Left(f"the yank of {self.name} {release}", why))
            else:
                self.yanked.append(release)

    def finish(self) -> None:
        """Claims a name that the source has without files."""
        if self.project.shown and not self.project.items and not self.is_dry:
            why = self.claim(self.project.shown)
            if why:
                self.left.append(Left(self.name, why))

    def add_owner(self, user: str) -> str:
        """Makes a user an owner. Gives the refusal, or an empty text."""
        if self.is_dry or user in self.look().owners or self.look().state == "free" and not self.claimed:
            return ""
        row = {"do": "add_owner", "name": self.name, "user": user}
        status, answer = self.desk.post(f"{self.name}: add owner {user}", row)
        return answer if self.why(row, status, answer) else ""


def read_bytes(item: Item, data: bytes) -> File:
    """A file that is checked before it goes out. What a damaged archive raises depends on how it is compressed."""
    try:
        return File(item.file, data, item.requires)
    except Exception as end:
        raise Failure(str(end).replace(f"{item.file}: ", "", 1) if isinstance(end, Stop)
                      else f"it can't be read: {end}") from end
