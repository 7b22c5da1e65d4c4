"""The texts of the repository that pages are made of and held to."""
from __future__ import annotations

import texts
from top import TOP, files_below


def read(path: str) -> str:
    return texts.read(f"{TOP}/{path}")


def write(path: str, text: str) -> None:
    texts.write(f"{TOP}/{path}", text)


def pages() -> list[str]:
    """The paths of all pages of the repository, from its top."""
    return [it for it in files_below("") if it.endswith(".md")]
