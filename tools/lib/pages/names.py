"""The names of code in the pages about it, and whether each stands in the sources."""
from __future__ import annotations

import os
import re
from typing import Iterator

from pages.files import pages, read
from pages.links import FENCED
from top import TOP, files_below

PAGES = re.compile(r"docs/(?:proofs|developers)/|crates/\w+/README\.md$")
ROOMS = ("crates", "tests", "server", "tools", "indexctl", "bench")
WRITTEN = re.compile(r"`([\w:./-]+)`")
# what can only be a name of code: with an underscore, a path, a further capital inside, or the ending of a source
NAME = re.compile(r"\w_\w|::|[a-z][A-Z]|\.(?:rt|antt|py)$")


def sources() -> set[str]:
    """The words of the sources, and the names of their files and folders."""
    found: set[str] = set()
    for path in (it for room in ROOMS for it in files_below(room)):
        found.update(path.split("/"), [os.path.splitext(os.path.basename(path))[0]])
        if not path.endswith((".md", ".png", ".svg", ".pyc")):
            with open(f"{TOP}/{path}", encoding="utf-8", errors="replace") as text:
                found.update(re.findall(r"[\w-]+", text.read()))
    return found


def lacks(page: str, known: set[str]) -> Iterator[str]:
    """The names in a page that stand in no source."""
    for written in sorted(set(WRITTEN.findall(FENCED.sub("", read(page))))):
        if ".." not in written and NAME.search(written):
            if not all(part in known for part in re.split(r"::|/", written) if part):
                yield written


def lost_names() -> list[tuple[str, list[str]]]:
    """The pages about the code, each with its names that stand nowhere."""
    known = sources()
    return [(page, list(lacks(page, known))) for page in pages() if PAGES.match(page)]
