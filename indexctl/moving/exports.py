"""An export: the projects of this index as files in a folder, in a form that an import takes."""
from __future__ import annotations

import csv
import hashlib
import io
import json
import os
import threading
from contextlib import suppress
from dataclasses import dataclass, field
from typing import Any, Dict, List, Sequence, Tuple

from indexctl.ends import WRONG, Stop
from indexctl.moving.imports import Owners, read_owners
from indexctl.moving.items import Left, digest_in
from indexctl.moving.pool import at_once_shown
from indexctl.moving.trees import PAGE, SHOWN
from indexctl.standings import find_page, find_standing, page_of_project
from indexctl.transport import Index, Request
from package_index.names import file_path, normal, read_file_name

OWNERS = "owners.csv"


@dataclass
class Exported:
    """What became of an export."""
    written: int = 0
    there: int = 0
    projects: List[str] = field(default_factory=list)
    left: List[Left] = field(default_factory=list)


@dataclass(frozen=True)
class Page:
    """A project as it is written: its name, how that is written, its owners, and the rows of its page."""
    name: str
    shown: str
    owners: List[str]
    rows: List[Dict[str, Any]]


def put_bytes(path: str, data: bytes) -> None:
    """Writes a file as a whole, or not."""
    part = f"{path}.part"
    try:
        with open(part, "wb") as made:
            made.write(data)
        os.replace(part, path)
    except OSError as end:
        with suppress(OSError):
            os.remove(part)
        raise Stop(WRONG, f"{path} can't be written: {end.strerror}. Run this again to go on.") from end


class Export:
    """An export into a folder, in which each project has a folder of its own."""

    def __init__(self, index: Index, folder: str, stopped: threading.Event) -> None:
        self.index, self.folder, self.stopped, self.report = index, folder, stopped, Exported()

    def run(self, names: Sequence[str]) -> None:
        pages: List[Page] = []
        for name, page in at_once_shown("pages", self.look, names, self.stopped):
            if page is None:
                self.report.left.append(Left(name, "nobody holds it"))
            else:
                pages.append(page)
        self.write_owners({page.name: page.owners for page in pages})
        for page in pages:
            self.write_page(page)
            self.report.projects.append(page.name)
        self.write_files(pages)

    def look(self, name: str) -> "Tuple[str, Page | None]":
        standing = find_standing(self.index, name)
        found = find_page(self.index, page_of_project(name), "files", "filename", is_fresh=True)
        if standing.state != "held" or found is None:
            return name, None
        # a name leads to no other folder
        rows = [it for it in found["files"] if read_file_name(it["filename"])]
        return name, Page(normal(name), standing.shown, standing.owners, rows)

    def path(self, page: Page, name: str) -> str:
        return os.path.join(self.folder, page.name, name)

    def write_files(self, pages: Sequence[Page]) -> None:
        todo = [(page, row) for page in pages for row in page.rows]
        for file, outcome in at_once_shown("files", self.write_file, todo, self.stopped):
            self.report.written += outcome == "written"
            self.report.there += outcome == "there"
            if outcome not in ("written", "there"):
                self.report.left.append(Left(file, outcome))

    def write_file(self, one: Tuple[Page, Dict[str, Any]]) -> Tuple[str, str]:
        """Writes a file that is not there. Gives what became of it."""
        page, row = one
        file, hashes = row["filename"], row.get("hashes")
        digest, path = digest_in(hashes.get("sha256")) if isinstance(hashes, dict) else "", self.path(page, file)
        with suppress(OSError), open(path, "rb") as kept:
            if hashlib.sha256(kept.read()).hexdigest() == digest:
                return file, "there"
        reply = self.index.ask(file, Request("GET", file_path(page.name, file)))
        if reply.status != 200:
            return file, f"the index answers {reply.status}: it was deleted meanwhile"
        if hashlib.sha256(reply.body).hexdigest() != digest:
            return file, "its bytes have another digest than the page says"
        put_bytes(path, reply.body)
        return file, "written"

    def write_page(self, page: Page) -> None:
        """Writes the page of a project before its files: an import then knows which of them are missing."""
        try:
            os.makedirs(os.path.join(self.folder, page.name), exist_ok=True)
        except OSError as end:
            raise Stop(WRONG, f"{end.filename} can't be made: {end.strerror}") from end
        rows = [{**row, "url": row["filename"], "requires-python": row.get("requires-python", "")} for row in page.rows]
        text = {"meta": {"api-version": "1.1"}, "name": page.name, SHOWN: page.shown, "files": rows}
        put_bytes(self.path(page, PAGE), f"{json.dumps(text, indent=1)}\n".encode())

    def write_owners(self, owners: Owners) -> None:
        """Writes the owners of these names, beside those of an export before."""
        path = os.path.join(self.folder, OWNERS)
        known = read_owners(path) if os.path.exists(path) else {}
        text = io.StringIO()
        rows = csv.writer(text, lineterminator="\n")
        rows.writerow(("name", "user"))
        rows.writerows((name, user) for name, users in sorted({**known, **owners}.items()) for user in users)
        put_bytes(path, text.getvalue().encode())
