"""Planted bugs of Python: each stands above the test that fails on it, and changes neither the test nor its run."""
from __future__ import annotations

from collections.abc import Sequence
from typing import Callable, TypeVar

Test = TypeVar("Test", bound=Callable[..., object])


def catches(file: str, old: str, new: str, *more: tuple[str, str, str], case: str | None = None,
            also: Sequence[str] = ()) -> Callable[[Test], Test]:
    """Says that the test below fails in a copy in which `new` is in the place of `old`, which stands once in the file.

    There may be `more` such changes of one bug. `case` names the parameters of the test with which it fails, and `also`
    the other tests that fail then: `test_b` of the same file, or `server/test_c.py::test_d[its parameters]`. All are
    literals: support/breaks.py reads them from the text of this file, and imports no test."""
    def as_it_is(test: Test) -> Test:
        return test

    return as_it_is
