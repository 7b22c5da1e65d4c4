"""Which bytes of a volume no row has. What is decided here is nothing but numbers: no file is read or written."""
from __future__ import annotations

from typing import Iterable, Iterator, Tuple

# from an offset to another one, of which the last byte is before the second
Range = Tuple[int, int]
# what the file system gives back at least: a page, of which each block of a file system has one or several
BLOCK = 4096


def free_below(end: int, used: Iterable[Range]) -> Iterator[Range]:
    """The ranges below an end of which no byte is used, each as long as it can be, in their order. Those that are used
    come in the order of their begins, and may have bytes in common."""
    at = 0
    for begin, stop in used:
        # a file without a byte is in nobody's way
        if begin < stop:
            if at < min(begin, end):
                yield at, min(begin, end)
            at = max(at, stop)
    if at < end:
        yield at, end


def whole_blocks(free: Range) -> Range:
    """The blocks that are in a range as a whole; none if the second number is not above the first."""
    begin, end = free
    return (begin + BLOCK - 1) // BLOCK * BLOCK, end // BLOCK * BLOCK
