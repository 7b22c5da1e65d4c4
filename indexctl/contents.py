"""What a project has: its files, and its releases with their yanks."""
from __future__ import annotations

import itertools
from dataclasses import dataclass
from typing import Any, Dict, List, Optional, Sequence, Tuple

from indexctl.standings import find_page, is_number, page_of_project
from indexctl.transport import Index
from indexctl.versions import order
from package_index.names import read_file_name


@dataclass(frozen=True)
class FileRow:
    """A file of a project. `yanked` is None, or the reason, which may be empty."""
    file: str
    release: str
    size: int
    python: str
    yanked: Optional[str]
    sha256: str


Release = Tuple[str, List[FileRow]]


@dataclass(frozen=True)
class ReleaseRow:
    """A release of a project, with the sum of its sizes."""
    name: str
    release: str
    files: List[str]
    size: int
    yanked: Optional[str]


def file_row(found: Dict[str, Any]) -> FileRow:
    """A file as a page has it. What is not of its kind is left out, so that a page of another kind is shown too."""
    spelled, yanked, hashes = read_file_name(found["filename"]), found.get("yanked"), found.get("hashes")
    size, python = found.get("size"), found.get("requires-python")
    digest = hashes.get("sha256") if isinstance(hashes, dict) else ""
    return FileRow(found["filename"], spelled.release if spelled else "", int(size) if size and is_number(size) else 0,
                   python if isinstance(python, str) else "",
                   yanked if isinstance(yanked, str) else "" if yanked is True else None,
                   digest if isinstance(digest, str) else "")


def find_contents(index: Index, name: str, is_fresh: bool = False) -> Optional[List[FileRow]]:
    """The files of a name by their releases, the newest first; None if nobody holds the name."""
    found = find_page(index, page_of_project(name), "files", "filename", is_fresh)
    if found is None:
        return None
    rows = sorted(map(file_row, found["files"]), key=lambda it: it.file)
    return sorted(rows, key=lambda it: order(it.release), reverse=True)


def releases_in(files: Sequence[FileRow]) -> List[Release]:
    """The releases with their files, in the order in which the files come."""
    return [(release, list(its)) for release, its in itertools.groupby(files, lambda it: it.release)]


def releases_of(name: str, files: Sequence[FileRow]) -> List[ReleaseRow]:
    """The same, each as a row."""
    return [ReleaseRow(name, release, [it.file for it in its], sum(it.size for it in its), its[0].yanked)
            for release, its in releases_in(files)]


def yanked_text(row: Any) -> str:
    return "" if row.yanked is None else row.yanked or "yes"
