"""Which names a person may have meant who made a slip."""
from __future__ import annotations

from contextlib import suppress
from typing import List, Sequence

from indexctl.ends import Stop
from indexctl.standings import listed_names
from indexctl.transport import Index
from package_index.names import normal

MOST_SHOWN = 3


def is_near(one: str, other: str) -> bool:
    """Whether two texts differ by one letter: one more, one less, another one, or two that changed places."""
    if one == other or abs(len(one) - len(other)) > 1:
        return False
    at = next((at for at, (a, b) in enumerate(zip(one, other)) if a != b), min(len(one), len(other)))
    rest, tail = one[at:], other[at:]
    is_turned = rest[:2] == tail[1::-1] and rest[2:] == tail[2:]
    return rest[1:] == tail[1:] or rest[1:] == tail or rest == tail[1:] or is_turned


def near(text: str, known: Sequence[str]) -> List[str]:
    """Those that are one letter off, or differ in their separators alone."""
    def plain(it: str) -> str:
        return normal(it).replace("-", "")
    return [it for it in known if it != text and (is_near(normal(text), normal(it)) or plain(text) == plain(it))]


def did_you_mean(text: str, known: Sequence[str]) -> str:
    """A question with the texts that are near to this one, or an empty text."""
    found = near(text, known)[:MOST_SHOWN]
    return f" Did you mean {' or '.join(f'`{it}`' for it in found)}?" if found else ""


def not_held(index: Index, name: str) -> str:
    """That nobody holds a name, and which one was perhaps meant."""
    known: List[str] = []
    # what is not held is known without the list
    with suppress(Stop):
        known = listed_names(index)
    return f"Nobody holds {name}.{did_you_mean(normal(name), known) or ' `indexctl names` lists all names.'}"
