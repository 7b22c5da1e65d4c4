"""The links of pages, and whether each leads to a file of the repository and to a heading there."""
from __future__ import annotations

import os
import re
from collections import Counter
from typing import Iterator

from pages.files import read
from top import TOP

FENCED = re.compile(r"^(```+).*?^\1`*$", re.S | re.M)
CODE = re.compile(r"(`+)(?!`).*?(?<!`)\1(?!`)", re.S)
LINK = re.compile(r"\]\(([^()\s]*(?:\([^()\s]*\)[^()\s]*)*)\)")
HEADING = re.compile(r"^#{1,6} +(.*?) *#*$", re.M)


def links_of(text: str) -> list[str]:
    """Where the links of a page lead. What stands in code is no link."""
    return LINK.findall(CODE.sub("", FENCED.sub("", text)))


def anchors_of(text: str) -> set[str]:
    """The anchors of the headings of a page, as GitHub makes them: a heading that comes again gets a number."""
    found: set[str] = set()
    counts: Counter[str] = Counter()
    for heading in HEADING.findall(FENCED.sub("", text)):
        shown = re.sub(r"\[([^]]*)\]\([^)]*\)", r"\1", heading).replace("`", "")
        anchor = re.sub(r"[^\w\- ]", "", shown.lower()).replace(" ", "-")
        found.add(f"{anchor}-{counts[anchor]}" if counts[anchor] else anchor)
        counts[anchor] += 1
    return found


def broken_links(page: str) -> Iterator[str]:
    """The links of a page that lead nowhere. Those to other sites are not looked at."""
    for link in links_of(read(page)):
        if re.match(r"[a-z]+:", link):
            continue
        path, _, anchor = link.partition("#")
        target = os.path.normpath(os.path.join(os.path.dirname(page), path)) if path else page
        if not os.path.exists(f"{TOP}/{target}") or target.startswith(".."):
            yield link
        elif anchor and not (target.endswith(".md") and anchor in anchors_of(read(target))):
            yield link
