"""Which bytes of a volume may be punched, by numbers alone: each property by what it says of single bytes."""
import pytest
from hypothesis import example, given
from hypothesis import strategies as st
from support.library import free_ranges
from support.planted import catches

BLOCK = free_ranges.BLOCK
# short, so that places touch, overlap, have no byte and lie above the end
PLACES = st.lists(st.tuples(st.integers(0, 60), st.integers(0, 9)).map(lambda it: (it[0], sum(it)))).map(sorted)


def bytes_of(ranges):
    return {at for begin, end in ranges for at in range(begin, end)}


@catches("server/lib/package_index/free_ranges.py",
         "            at = max(at, stop)", "            at = max(at, stop - 1)")
@catches("server/lib/package_index/free_ranges.py",
         "                yield at, min(begin, end)", "                yield at, min(begin + 1, end)")
@catches("server/lib/package_index/free_ranges.py", "            at = max(at, stop)", "            at = stop")
@catches("server/lib/package_index/free_ranges.py",
         "                yield at, min(begin, end)", "                yield at, begin")
@catches("server/lib/package_index/free_ranges.py",
         "    if at < end:\n", "    if at <= end:\n")
@given(st.integers(0, 70), PLACES)
@example(10, [(0, 3), (3, 5), (8, 9)])
@example(10, [(0, 9), (2, 3), (9, 9)])
@example(4, [(6, 8)])
def test_a_byte_is_free_if_it_is_below_the_end_and_no_place_has_it(end, used):
    free = list(free_ranges.free_below(end, used))
    assert bytes_of(free) == {*range(end)} - bytes_of(used)
    assert all(begin < stop <= end for begin, stop in free)


@catches("server/lib/package_index/free_ranges.py", "        if begin < stop:", "        if begin <= stop:")
@given(st.integers(0, 70), PLACES)
@example(10, [(5, 5)])
def test_ranges_are_as_long_as_they_can_be(end, used):
    """Two that touch would keep the block that both have a part of."""
    free = list(free_ranges.free_below(end, used))
    assert all(one[1] < other[0] for one, other in zip(free, free[1:]))


@pytest.mark.parametrize("end, used, free", [
    (0, [], []), (5, [], [(0, 5)]), (5, [(0, 5)], []), (5, [(0, 2), (2, 5)], []), (5, [(1, 2), (3, 4)],
                                                                                [(0, 1), (2, 3), (4, 5)]),
    (3, [(1, 2), (8, 9)], [(0, 1), (2, 3)]), (9, [(0, 8), (1, 2)], [(8, 9)]), (2, [(2, 4)], [(0, 2)])])
def test_free_ranges_that_were_counted_by_hand(end, used, free):
    assert list(free_ranges.free_below(end, used)) == free


@catches("server/lib/package_index/free_ranges.py",
         "    return (begin + BLOCK - 1) // BLOCK * BLOCK, end // BLOCK * BLOCK",
         "    return begin // BLOCK * BLOCK, end // BLOCK * BLOCK",
         also=["test_blocks_that_were_counted_by_hand"])
@catches("server/lib/package_index/free_ranges.py", "end // BLOCK * BLOCK", "(end + BLOCK - 1) // BLOCK * BLOCK",
         also=["test_blocks_that_were_counted_by_hand"])
@given(st.integers(0, 5 * BLOCK), st.integers(1, 5 * BLOCK))
def test_whole_blocks_are_those_of_which_each_byte_is_free(begin, size):
    first, last = free_ranges.whole_blocks((begin, begin + size))
    whole = [at for at in range(0, 11 * BLOCK, BLOCK) if begin <= at and at + BLOCK <= begin + size]
    assert [*range(first, last, BLOCK)] == whole and (not whole or last == whole[-1] + BLOCK)


@pytest.mark.parametrize("free, blocks", [
    ((0, 4096), (0, 4096)), ((0, 4095), (0, 0)), ((1, 4096), (4096, 4096)), ((1, 8192), (4096, 8192)),
    ((4095, 8193), (4096, 8192)), ((4097, 8191), (8192, 4096))])
def test_blocks_that_were_counted_by_hand(free, blocks):
    assert free_ranges.whole_blocks(free) == blocks
