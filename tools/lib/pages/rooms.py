"""The rooms of docs: which pages stand where, whom each page is for, and how long pages and cells may be."""
from __future__ import annotations

import re
from typing import Iterator

from pages.files import pages, read
from trial import Trial

ROOMS = {
    "users": {"USING", "OWNING", "MOVING", "NAMES"},
    "office": {"OFFICE", "RETENTION"},
    "operators": {"INSTALL", "CONTAINER", "OPERATING", "RECOVERY", "SCALING", "TWO-MACHINES", "PERFORMANCE"},
    "reference": {"REQUESTS", "HTTP", "FORMATS", "PAGES", "TABLES"},
    "proofs": {"PROMISES", "THEOREM", "CLAUSES", "RUNS", "HISTORY", "WORDS"},
    "developers": {"ARCHITECTURE", "CHANGING", "PROOF-COSTS", "DECISIONS", "DECISIONS-SQLITE"},
}
FIRST = "docs/README.md"
MOST_OF_PAGE, MOST_OF_CELL = 4_600, 60
# pages that are to be read at one sitting
SHORT = {"docs/proofs/THEOREM.md": 1_000}


def in_docs() -> list[str]:
    return [it for it in pages() if it.startswith("docs/")]


def named() -> set[str]:
    """The paths that the pages of docs have by their rooms."""
    return {FIRST} | {f"docs/{room}/{page}.md" for room, inside in ROOMS.items() for page in inside}


def words_of(text: str) -> int:
    return len(text.split())


def first_paragraph(text: str) -> str:
    """What stands between the first heading and the next empty line."""
    found = re.match(r"# .+\n\n((?:.+\n)+)", text)
    return found[1] if found else ""


def says_for_whom(text: str) -> bool:
    """Whether a page begins by saying for whom it is."""
    return bool(re.match(r"This page is for (you if|everybody)", first_paragraph(text)))


def long_cells(text: str) -> Iterator[int]:
    """The cells of the tables of a page that have too many words, by their lines."""
    for at, line in enumerate(text.splitlines(), 1):
        if line.startswith("|"):
            yield from (at for cell in line.strip("|").split("|") if words_of(cell) > MOST_OF_CELL)


def check_rooms(trial: Trial) -> None:
    found = in_docs()
    differ = sorted(named() ^ set(found))
    trial.check("docs has the pages of its rooms", not differ, differ)
    linked = {f"docs/{it}" for it in re.findall(r"\]\(([\w/-]+\.md)\)", read(FIRST))} | {FIRST}
    trial.check(f"{FIRST} leads to each page", linked == named(), sorted(linked ^ named()))
    for page in found:
        trial.check(f"{page} says first for whom it is", says_for_whom(read(page)), first_paragraph(read(page))[:80])
        cells = list(long_cells(read(page)))
        trial.check(f"{page}: no cell above {MOST_OF_CELL} words", not cells, f"lines {cells}")
        words = words_of(read(page))
        most = SHORT.get(page, MOST_OF_PAGE)
        trial.check(f"{page} has at most {most:,} words", words <= most, f"it has {words:,}: make two pages of it")
