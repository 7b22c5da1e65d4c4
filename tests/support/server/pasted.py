"""Blocks of the pages of operators and the office, which tests run as a person pastes them."""
from __future__ import annotations

import glob
import re

from support.places import TOP


def block(starts: str, has: str = "") -> str:
    """The one block of these pages that begins so, and that has another text if one is given."""
    found = []
    for path in (*glob.glob(f"{TOP}/docs/operators/*.md"), *glob.glob(f"{TOP}/docs/office/*.md")):
        with open(path, encoding="utf-8") as page:
            blocks = re.findall(r"^```sh\n(.*?)^```$", page.read(), re.M | re.S)
            found += [it for it in blocks if it.startswith(starts) and has in it]
    if len(found) != 1:
        raise RuntimeError(f"the pages have {len(found)} blocks that begin with {starts!r}")
    return found[0]
