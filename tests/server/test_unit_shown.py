"""How far long work is, in words."""
import pytest
from support.library import shown

MIB = 1 << 20


@pytest.mark.parametrize("done, total, seconds, is_bytes, text", [
    (1, 3, 0.9, False, "1 of 3, 33 %"), (0, 3, 5, False, "0 of 3, 0 %"), (0, 0, 5, False, "0 of 0, 0 %"),
    (30, 120, 10, False, "30 of 120, 25 %, 3.0 a second, 0:30 left"),
    (1, 1000, 1, False, "1 of 1000, 0 %, 1.0 a second, 16:39 left"),
    (MIB, 4 * MIB, 2, True, "1.0 of 4.0 MiB, 25 %, 0.5 MiB a second, 0:06 left"),
    (MIB, 4 * MIB, 0, True, "1.0 of 4.0 MiB, 25 %")])
def test_a_line_says_how_far_and_for_how_long(done, total, seconds, is_bytes, text):
    assert shown.how_far("x", done, total, seconds, is_bytes) == f"x: {text}"
