"""Each line of units and of nginx is changed by a planted bug on which a test fails, or has a row that says what comes
of it without. A line that is changed or left out differs from its row."""
import pytest
from support.server.promises import lines, rows, seen_by_breaks

ROWS = rows()
UNITS = [it for it in ROWS if not any(name.endswith(".conf") for name in it.files)]
OTHERS = [it for it in ROWS if it not in UNITS]


@pytest.fixture(scope="module")
def found():
    return lines()


@pytest.mark.parametrize("row", UNITS, ids=lambda it: it.line[:60])
def test_a_unit_has_what_is_relied_on(found, row):
    assert {name: found[name, row.line] for name in row.files} == row.files, row.why


@pytest.mark.parametrize("row", OTHERS, ids=lambda it: it.line[:60])
def test_nginx_has_what_is_relied_on(found, row):
    assert {name: found[name, row.line] for name in row.files} == row.files, row.why


def test_each_line_is_seen_by_a_test_or_has_a_row(found):
    known, seen = {(name, it.line) for it in ROWS for name in it.files}, seen_by_breaks()
    lacks = [line for line, count in found.items() if seen[line] < count and line not in known]
    assert not lacks, "write what comes of it into tests/support/server/promises.txt, or plant a bug that a test sees"


def test_each_line_has_one_row_with_a_reason():
    assert len({it.line for it in ROWS}) == len(ROWS) and len(ROWS) > 200
    assert all(len(it.why.split()) > 2 for it in ROWS)
