"""What is drawn at random."""
from __future__ import annotations

import random
from collections.abc import Iterable
from typing import TypeVar

Place = TypeVar("Place")


def chosen(chance: random.Random, places: Iterable[Place], count: int) -> list[Place]:
    """So many of these places, in their order, or all of them if there are no more."""
    every = list(places)
    if len(every) <= count:
        return every
    return [every[at] for at in sorted(chance.sample(range(len(every)), count))]
