"""Held names that look alike, of which one may be a typosquat of another."""
from __future__ import annotations

import re
from collections import defaultdict
from itertools import chain
from typing import Collection, Dict, Iterator, List, Mapping, Sequence, Tuple

# a name with fewer letters and digits is one off many others by chance
FEWEST_LETTERS = 4
# so many letters of a text are looked at together; and so many bytes have what was seen of texts
TOGETHER, SLOTS = 4, 1 << 20
DIGITS = re.compile("[0-9]")


def texts_of(name: str) -> Tuple[str, str]:
    """A name without separators, and without digits too unless nothing is left then."""
    text = name.lower().replace("-", "").replace("_", "").replace(".", "")
    return text, text if text.isalpha() else DIGITS.sub("", text) or text


def shared(group: Sequence[str], shorter: Sequence[str], start: int, end: int) -> List[str]:
    """Those of a group that may be one of these letters off another: what they have beside these letters, and the one
    behind, another has too, or a shorter one. What was seen is kept by its hash, in a byte, so a few may be among them
    that are off none."""
    seen = bytearray(SLOTS)
    for text in shorter:
        seen[hash(text[:start] + text[end:]) % SLOTS] = 1
    places = [hash(text[:start] + text[end + 1:]) % SLOTS for text in group]
    for place in places:
        seen[place] = 2 if seen[place] else 1
    return [text for text, place in zip(group, places) if seen[place] == 2]


def one_letter_apart(texts: Collection[str]) -> Iterator[Tuple[str, str]]:
    """Pairs of texts that differ by one letter: another one, one more, or two that changed places. Of those that have
    another letter at the same place each is paired with the first alone, so that there are few pairs. What is cut is
    kept for one place of one length at a time: all at once take 400 MiB for 100,000 names."""
    lengths: Dict[int, List[str]] = defaultdict(list)
    for text in texts:
        if len(text) >= FEWEST_LETTERS:
            lengths[len(text)].append(text)
    for length, group in list(lengths.items()):
        for start in range(0, length, TOGETHER):
            end = min(start + TOGETHER, length)
            near = shared(group, lengths.get(length - 1, []), start, end)
            for at in range(start, end):
                yield from cut(near, at, texts)


def cut(near: Sequence[str], at: int, texts: Collection[str]) -> Iterator[Tuple[str, str]]:
    """The pairs that differ at this place, or at it and the next."""
    first: Dict[str, str] = {}
    for text in near:
        rest, turned = text[:at] + text[at + 1:], text[:at] + text[at:at + 2][::-1] + text[at + 2:]
        other = first.setdefault(rest, text)
        if other is not text:
            yield text, other
        if turned != text and turned in texts:
            yield text, turned
        if len(rest) >= FEWEST_LETTERS and rest in texts:
            yield text, rest


def alike(owners: Mapping[str, Sequence[str]]) -> List[List[str]]:
    """Groups of names that are equal without separators and digits, or one letter apart, from the owners of each name.
    A group whose names all have the same owners is left out: these people know their own names."""
    # only of texts that were joined to others
    head: Dict[str, str] = {}

    def head_of(text: str) -> str:
        while text in head:
            head[text] = text = head.get(head[text], head[text])
        return text

    def join(one: str, other: str) -> None:
        one, other = head_of(one), head_of(other)
        if one != other:
            head[one] = other
    for pair in chain(map(texts_of, owners), one_letter_apart({text for name in owners for text in texts_of(name)})):
        join(*pair)
    # most names are alone, and need no list
    first: Dict[str, str] = {}
    groups: Dict[str, List[str]] = {}
    for name in owners:
        text = head_of(texts_of(name)[0])
        one = first.setdefault(text, name)
        if one is not name:
            groups.setdefault(text, [one]).append(name)
    return sorted(sorted(names) for names in groups.values() if len({frozenset(owners[it]) for it in names}) > 1)
