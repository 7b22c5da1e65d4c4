"""The blocks of the pages for operators, as they stand there."""
from __future__ import annotations

import re

from support.places import TOP

BLOCK = re.compile(r"^```sh\n(.*?)^```$", re.MULTILINE | re.DOTALL)


def block(part: str, page: str = "TWO-MACHINES", starts: bool = False) -> str:
    """The first block of a page that has this part, or that starts with it."""
    with open(f"{TOP}/docs/operators/{page}.md", encoding="utf-8") as kept:
        found = [text for text in BLOCK.findall(kept.read())
                 if (text.startswith(part) if starts else part in text)]
    assert found, f"no block of {page} has {part!r}"
    return found[0]
