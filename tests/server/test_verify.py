"""index-verify passes a sound copy, and finds each row that is wrong."""
import pytest
from support.planted import catches
from support.server.expected import assert_ends
from support.server.rows import WRONG, changed, made, verified


@pytest.fixture
def copy(program, folder):
    return made(program, f"{folder}/copy.db")


@catches("server/bin/index-verify", "names.normal(text) if", "names.normal(text).upper() if")
def test_a_sound_copy(program, copy):
    assert_ends(verified(program, copy), 0)


@catches("server/bin/index-verify", "for what, rows in RULES:", "for what, rows in RULES[:0]:")
@pytest.mark.parametrize("what", WRONG)
@pytest.mark.told("`index-restore`")
def test_a_wrong_row(program, copy, what):
    statement, said = WRONG[what]
    assert changed(copy, statement) == 1
    assert_ends(verified(program, copy), 1, said)
