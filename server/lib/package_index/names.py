"""Names of projects, releases and files, read by the grammar of docs/users/NAMES.md.

This is the one grammar of the programs and of indexctl. The model of the tests has another, so that each is tried by
one that does not share its slips."""
from __future__ import annotations

import re
import urllib.parse
from typing import NamedTuple, Optional

MOST_NAME, MOST_VERSION, MOST_FILE_NAME = 128, 64, 255

NAME = re.compile(r"[A-Za-z0-9](?:[A-Za-z0-9._-]*[A-Za-z0-9])?")
VERSION = re.compile(r"[A-Za-z0-9](?:[A-Za-z0-9._+!]*[A-Za-z0-9])?")
# a file name is cut at its hyphens, so no part but an archive's name has one
TAG = r"[A-Za-z0-9._]+"
WHEEL = re.compile(rf"([A-Za-z0-9._]+)-({VERSION.pattern})(?:-([0-9][A-Za-z0-9._]*))?-({TAG})-({TAG})-({TAG})\.whl")
ARCHIVE = re.compile(rf"([A-Za-z0-9._-]+)-({VERSION.pattern})\.tar\.gz")
USER = re.compile("[a-z0-9]{1,32}")
SPECIFIER = re.compile(r"\s*(?:~=|===?|!=|<=?|>=?)\s*[0-9A-Za-z][0-9A-Za-z.*+!_-]*\s*")


class FileName(NamedTuple):
    """What a file name spells. `project` and `release` are the normal forms of its `name` and `version`."""
    name: str
    version: str
    is_wheel: bool

    @property
    def project(self) -> str:
        return normal(self.name)

    @property
    def release(self) -> str:
        return self.version.lower()


def normal(name: str) -> str:
    """The normal form of a name (PEP 503): all spellings that share it are one name. Any text has one."""
    return re.sub(r"[-_.]+", "-", name).lower()


def is_name(text: str) -> bool:
    """Whether this is the name of a project."""
    return len(text) <= MOST_NAME and NAME.fullmatch(text) is not None


def is_version(text: str) -> bool:
    """Whether this is a version text, which names the release that it is in lower case."""
    return len(text) <= MOST_VERSION and VERSION.fullmatch(text) is not None


def is_user(text: str) -> bool:
    """Whether this is the id of a user."""
    return USER.fullmatch(text) is not None


def is_requires_python(text: str) -> bool:
    """Whether this is a list such as `>=3.8, <4`, or empty. If a page has any other text, pip warns of it, and Poetry
    and PDM take no release of the project."""
    return not text or all(SPECIFIER.fullmatch(it) for it in text.split(","))


def read_file_name(text: str) -> Optional[FileName]:
    """What a file name spells, or None if it is not that of a wheel or of a .tar.gz."""
    if len(text) > MOST_FILE_NAME:
        return None
    is_wheel = text.endswith(".whl")
    found = (WHEEL if is_wheel else ARCHIVE).fullmatch(text)
    if not found or not is_name(found[1]) or not is_version(found[2]):
        return None
    return FileName(found[1], found[2], is_wheel)


def file_path(project: str, file: str) -> str:
    """The path of a file on the index, of a project by its normal form."""
    return f"/files/{project}/{urllib.parse.quote(file, safe='')}"
