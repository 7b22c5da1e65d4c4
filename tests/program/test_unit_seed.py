"""What is drawn for a property depends on the seed alone, and no property fails by a clock."""
from __future__ import annotations

import time

from hypothesis import given
from hypothesis import strategies as st

# of one example: what hypothesis bounds by itself is a fifth of a second
STOPPED = 0.3


def drawn() -> list[int]:
    """The numbers for which a property is tried."""
    seen = []

    @given(st.integers())
    def look(number: int) -> None:
        seen.append(number)

    look()
    return seen


def test_a_property_is_tried_for_the_same_values_by_the_same_seed():
    """So one that failed fails when `tests/run` asks it again."""
    first = drawn()
    assert len(set(first)) > 10 and drawn() == first


def test_an_example_that_a_busy_machine_stops_fails_no_property():
    pauses = iter([STOPPED])

    @given(st.integers())
    def look(_: int) -> None:
        time.sleep(next(pauses, 0))

    look()
    assert next(pauses, None) is None
