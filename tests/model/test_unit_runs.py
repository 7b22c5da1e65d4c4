"""How runs are chosen, without the program."""
from __future__ import annotations

import random
from collections import Counter

from support.model_runs import written_run


def test_a_run_is_that_of_its_seed_whatever_was_drawn_before():
    """So a test that failed does the same when it is asked again alone."""
    first, again = (written_run(random.Random(7), 0, Counter()) for _ in range(2))
    # their difference would be long
    is_same = first == again
    assert is_same
