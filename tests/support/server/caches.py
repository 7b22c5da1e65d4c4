"""A folder of nginx's cache with files of projects, as index-uncache looks at it."""
from __future__ import annotations

import glob
import os
from collections.abc import Iterable

from support.library import cache
from support.programs import program_of

UNCACHE = program_of("index-uncache")


def make_cache(at: str, files: Iterable[tuple[str, str]]) -> str:
    """A folder in which nginx keeps these files, each of a project."""
    for project, file in files:
        key = f"/files/{project}/{file}"
        path = cache.place_of_file(at, project, file)
        os.makedirs(os.path.dirname(path), exist_ok=True)
        with open(path, "w", encoding="ascii") as made:
            made.write(f"head\nKEY: {key}\nbytes")
    return at


def keys(at: str) -> list[str]:
    """The addresses of the files that are there."""
    return sorted(UNCACHE.key_of(it) for it in glob.glob(f"{at}/*/*/*"))
