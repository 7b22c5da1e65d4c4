"""What a source has: files with their digests and yanks, and why some of them can't be imported."""
from __future__ import annotations

import re
import unicodedata
import urllib.parse
from dataclasses import dataclass, field
from typing import Dict, Iterable, List, Mapping, Optional, Sequence, Set

from indexctl.ends import WRONG, Stop
from indexctl.names import check_names, is_noncharacter
from indexctl.uploads import MOST_BYTES, MOST_TEXT
from package_index.names import is_requires_python, is_version, normal, read_file_name

# what sources have beside wheels and .tar.gz: an index can't take it, and a person has to know
OTHERS = (".zip", ".egg", ".tar.bz2", ".tar.xz", ".tar.z", ".tgz", ".tar", ".exe", ".msi", ".rpm", ".deb", ".dmg")
# by the names that a person gave, the releases of each; none stands for all
Wanted = Mapping[str, Set[str]]


@dataclass(frozen=True)
class Item:
    """A file at a source: where it is, and its digest, yank, Requires-Python and size if the source says them."""
    file: str
    place: str
    sha256: str = ""
    yanked: Optional[str] = None
    requires: Optional[str] = None
    size: int = 0

    @property
    def told(self) -> str:
        """What a person knows it by. An address may hold a secret."""
        return self.file if self.place.startswith(("http:", "https:")) else self.place


@dataclass(frozen=True)
class Left:
    """What is not imported, and why."""
    place: str
    why: str


@dataclass
class Project:
    """A project of a source. `shown` is empty if the source does not say how its name is written."""
    name: str
    shown: str = ""
    items: List[Item] = field(default_factory=list)
    yanks: Dict[str, str] = field(default_factory=dict)


@dataclass
class Found:
    """What was found at a source, with what has to be left."""
    projects: Dict[str, Project] = field(default_factory=dict)
    left: List[Left] = field(default_factory=list)

    def project(self, name: str) -> Project:
        return self.projects.setdefault(name, Project(name))


def read_wanted(words: Sequence[str]) -> Wanted:
    """The names and releases that were typed: NAME stands for all its releases, NAME==VERSION for one."""
    found: Dict[str, Set[str]] = {}
    whole = set()
    for word in words:
        name, mark, version = word.partition("==")
        check_names(name)
        if mark and not is_version(version):
            raise Stop(WRONG, f"{word!r} names no version. Write a name, or NAME==VERSION.")
        found.setdefault(normal(name), set()).update([version.lower()] if mark else [])
        whole.update([] if mark else [normal(name)])
    return {name: set() if name in whole else versions for name, versions in found.items()}


def is_archive(file: str) -> bool:
    """Whether a name is that of a package, also of one that no index takes. Others are passed over."""
    return file.lower().endswith((".whl", ".tar.gz", *OTHERS))


def why_not(item: Item) -> str:
    """Why the index can't take a file, as far as its name and its size say so; else an empty text."""
    if not item.file.endswith((".whl", ".tar.gz")):
        return "the index takes .whl and .tar.gz alone"
    if not read_file_name(item.file):
        return "the index takes no such file name"
    if item.size > MOST_BYTES:
        return f"it has {item.size} bytes, and the index takes {MOST_BYTES} at most"
    return ""


def other_hosts(found: Found, host: str) -> Dict[str, int]:
    """How many files are at which hosts, but for those of the source's own."""
    hosts: Dict[str, int] = {}
    for project in found.projects.values():
        for item in project.items:
            its = urllib.parse.urlsplit(item.place).hostname or ""
            hosts[its] = hosts.get(its, 0) + 1
    return {its: count for its, count in sorted(hosts.items()) if its != host}


def add_items(found: Found, items: Iterable[Item], wanted: Wanted) -> None:
    """Puts the files that are wanted to their projects, or to what is left."""
    for item in items:
        spelled = read_file_name(item.file)
        if not (is_wanted(wanted, spelled.project, spelled.release) if spelled else may_be_wanted(wanted, item.file)):
            continue
        why = why_not(item)
        if why or not spelled:
            found.left.append(Left(item.told, why))
        else:
            found.project(spelled.project).items.append(item)


def is_wanted(wanted: Wanted, project: str, release: str) -> bool:
    return not wanted or project in wanted and (not wanted[project] or release in wanted[project])


def may_be_wanted(wanted: Wanted, file: str) -> bool:
    """The same of a file whose name can't be read: it begins with that of its project."""
    return not wanted or any(normal(file).startswith(f"{name}-") for name, versions in wanted.items() if not versions)


def tell_missing(found: Found, wanted: Wanted) -> None:
    """Adds what was asked for by name and is not there."""
    known = {it.place for it in found.left}
    for name, versions in wanted.items():
        items = found.projects[name].items if name in found.projects else []
        there = {spelled.release for spelled in map(read_file_name, (it.file for it in items)) if spelled}
        for release in sorted(versions - there):
            found.left.append(Left(f"{name}=={release}", "the source has no file of it that the index takes"))
        if not versions and name not in found.projects and name not in known:
            found.left.append(Left(name, "the source has no file of it that the index takes"))


def settle(found: Found) -> None:
    """Orders the files of each project, wheels first, and finds which releases are yanked. The index yanks whole
    releases."""
    for project in found.projects.values():
        project.items.sort(key=lambda it: (not it.file.endswith(".whl"), it.file))
        by_release: Dict[str, List[Item]] = {}
        for item in project.items:
            spelled = read_file_name(item.file)
            by_release.setdefault(spelled.release if spelled else "", []).append(item)
        for release, items in by_release.items():
            reasons = [it.yanked for it in items if it.yanked is not None]
            if len(reasons) == len(items):
                project.yanks[release] = reason_of(reasons[0])
            elif reasons:
                found.left.append(Left(f"the yank of {project.name} {release}", "the source yanks some of its files "
                                       "alone, and the index yanks whole releases"))


def reason_of(text: str) -> str:
    """A reason as the index takes it: one line, and not too long."""
    line = "".join(" " if unicodedata.category(it) == "Cc" or is_noncharacter(it) else it for it in text)
    return line.encode("utf-8", "replace")[:MOST_TEXT].decode("utf-8", "ignore")


def requires_of(value: object) -> Optional[str]:
    """The Requires-Python that a page says, or None if it is none that the index takes: then that inside counts."""
    if not isinstance(value, str) or not value.isascii() or not value.isprintable() or len(value) > MOST_TEXT:
        return None
    return value if value and is_requires_python(value) else None


def digest_in(value: object) -> str:
    """A SHA-256 digest, or an empty text if this is none."""
    found = value.lower() if isinstance(value, str) else ""
    return found if re.fullmatch("[0-9a-f]{64}", found) else ""
