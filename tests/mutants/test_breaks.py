"""Each break, above a test or in tests/mutants/*.edits, is seen by the tests that it names.

In memory each is made in each run. With `--breaks`, or by turns with `--share`, each is made in a copy of the rooms,
and its tests are run there, and have to fail."""
import ast
import glob
import os
import tempfile
from dataclasses import dataclass

import pytest
from support.breaks import NotMade, all_breaks, breaks_above, loose_names, names_of
from support.inner_runs import Ended, names_in
from support.places import TOP
from support.planted import catches

BREAKS, ROOMS = all_breaks(), ("server", "indexctl", "clients")
# the longest part of a run of one break, in seconds: some start three kinds of servers first
LONGEST = 600
# how often its tests are run until they see it: a slow machine may hide a race once, and MISSED tells of it
TRIES = 3
MISSED = f"{TOP}/tests/out/missed-breaks.txt"


def by_name(breaks):
    """Each of these breaks as a parameter, by its room and its name."""
    return [pytest.param(it, id=f"{it.room}-{it.name}") for it in breaks]


def is_of_unit_tests(one):
    """Whether all tests that see a break are of files that need no program."""
    return all("/test_unit_" in it.partition("::")[0] for it in one.caught)


@pytest.mark.parametrize("others, needs_none", [([], True), (["tests/server/test_c.py::test_unit_d"], False)])
def test_a_break_needs_no_program_if_none_of_its_tests_does(others, needs_none):
    """Without one, a test that needs it would fail, as if it saw the break."""
    assert is_of_unit_tests(Tried([], caught=("tests/server/test_unit_a.py::test_b", *others))) == needs_none


@pytest.mark.parametrize("line, name", [
    ("FAILED a/test_b.py::test_c - assert [1] == [2]", "a/test_b.py::test_c"), ("FAILED a/test_b.py", "a/test_b.py"),
    ("FAILED a/test_b.py::test_c[d-  \\t e;--f] - End('[g]')", "a/test_b.py::test_c[d-  \\t e;--f]"),
    ("FAILED a/test_b.py::test_c[d[0]]", "a/test_b.py::test_c[d[0]]")])
def test_a_test_that_failed_is_known_by_its_name(line, name):
    assert names_in(f"1 failed\n{line}\nERROR a/test_e.py\n", "FAILED") == {name}


@pytest.mark.parametrize("status, said, why", [
    (0, "SKIPPED [2] a/test_b.py:23: nft is not installed\n2 skipped in 0.03s\n0 passed, 0 failed\n",
     "nft is not installed"),
    (0, "SKIPPED [1] a.py:2: one\nSKIPPED [1] a.py:3: two: so\n2 skipped in 61.03s (0:01:01)\n", "one; two: so"),
    (0, "SKIPPED [1] a.py:2: one\n1 passed, 1 skipped in 0.03s\n", ""), (0, "2 passed in 0.03s\n", ""),
    (1, "SKIPPED [1] a.py:2: one\nFAILED a.py::b\n1 failed, 1 skipped in 0.03s\n", ""), (5, "", "")])
def test_only_if_all_tests_are_skipped_nothing_is_said_of_a_break(status, said, why):
    assert Ended(status, frozenset(), frozenset(), said).why_skipped == why


def test_each_has_a_name_of_its_own():
    names = [(it.room, it.name) for it in BREAKS]
    assert not sorted({it for it in names if names.count(it) > 1})


@pytest.mark.parametrize("one", by_name(BREAKS))
def test_can_be_made(one):
    assert one.texts() or one.program or one.alter
    assert one.caught, "it names no test that sees it"
    assert not one.unknown_tests(), "no file has these tests"
    assert not one.loose_names(), "it reads these names, which nothing makes"


@pytest.mark.parametrize("text, names", [
    ("if words:\n    pass", {"words"}), ("def f(a):\n    return [b for b in a if c]", {"c"}),
    ("import a\nb: int = len(a.c)\ndef f(d=b):\n    global e\n    e = d\nf(e)", set())])
def test_a_name_that_nothing_makes_is_known(text, names):
    assert loose_names(text) == names


ABOVE = """
@catches("a", "x", r"\\y", ("b", "1", "2"), case="", also=["test_c[d.py::e]", "server/test_f.py::test_g[h]"])
@pytest.mark.slow
@catches("a", "z", "")
def test_a(index): pass
class TestB:
    @catches("a", "x", "y", case="3 - 4")
    def test_c(self): pass
"""


@catches("tests/support/breaks.py", 'if ".py::" in it.partition("[")[0] else', 'if ".py::" in it else')
@catches("tests/support/breaks.py", 'if "case" in given else test', 'if given.get("case") else test')
@catches("tests/support/breaks.py", ', *given.get("more", ())]', "]")
@catches("tests/support/breaks.py", 'for inside, body in [("", tree.body), *methods]', "for inside, body in methods")
def test_a_break_stands_above_its_test():
    one, two, three = breaks_above("tests/server/test_x.py", ast.parse(ABOVE))
    here = "tests/server/test_x.py::"
    assert (one.room, one.name, one.fault) == ("server", "test_x-test_a-1", "")
    assert one.changes == [("a", "x", "\\y"), ("b", "1", "2")]
    assert one.caught == [f"{here}test_a[]", f"{here}test_c[d.py::e]", "tests/server/test_f.py::test_g[h]"]
    assert (two.name, two.changes, two.caught) == ("test_x-test_a-2", [("a", "z", "")], [f"{here}test_a"])
    assert (three.name, three.caught) == ("test_x-TestB-test_c", [f"{here}TestB::test_c[3 - 4]"])


@catches("tests/support/breaks.py", "for it in statements(tree):", "for it in tests:")
@catches("tests/support/breaks.py", "except (TypeError, ValueError) as error:", "except ValueError as error:")
@pytest.mark.parametrize("text, fault", [
    ('@catches("a", OLD, "y")\ndef test_a(): pass', "in literals"),
    ('@catches("a", "x")\ndef test_a(): pass', "missing a required argument: 'new'"),
    ('@catches("a", "x", "y", under=1)\ndef test_a(): pass', "unexpected keyword argument 'under'"),
    ('@catches("a", "x", "y")\ndef helper(): pass', "above no test"),
    ('@catches("a", "x", "y")\nclass TestA: pass', "above no test"),
    ('def test_a():\n    try: pass\n    finally:\n        @catches("a", "x", "y")\n        def test_b(): pass',
     "above no test")])
def test_a_break_that_can_not_be_read_fails_by_its_own_name(text, fault):
    one, = breaks_above("tests/server/test_x.py", ast.parse(text))
    with pytest.raises(NotMade, match=fault):
        one.texts()


@catches("tests/support/planted.py", "        return test", "        return lambda *words: test(*words)")
def test_a_test_stays_as_it_is():
    def test(index):
        """It does nothing."""

    assert catches("a", "x", "y", case="1")(test) is test


def files_with_breaks():
    """The test files of server/ and indexctl/, and those of clients that a break names; not those of units."""
    named = {name.partition("::")[0] for it in BREAKS for name in it.caught}
    files = [os.path.relpath(it, TOP) for room in ROOMS for it in sorted(glob.glob(f"{TOP}/tests/{room}/test_*.py"))]
    return [it for it in files if not os.path.basename(it).startswith("test_unit_")
            and (it in named or "clients" not in it)]


def without_a_break():
    """The tests of without_a_break.txt, which no break names yet."""
    with open(f"{TOP}/tests/mutants/without_a_break.txt", encoding="utf-8") as kept:
        return kept.read().split()


@pytest.mark.parametrize("file", files_with_breaks())
def test_each_test_stands_at_a_break(file):
    """So each of them has failed once. Of those in without_a_break.txt nobody has seen it: the list may only become
    shorter."""
    seen = {name.partition("[")[0] for it in BREAKS for name in it.caught}
    unseen = {it for it in names_of(file) if it not in seen and it.rpartition("::")[0] not in seen}
    assert not unseen - {*without_a_break()}


def unseen_by(ended, one):
    """The tests of a break that did not fail; all of them if the run ended otherwise than by a failure."""
    return [it for it in one.caught if ended.status != 1 or not ended.has_failed(it)]


def first_seen(one, program, tries=TRIES):
    """How the tests of a break end at the first try at which each of them fails, or at the last."""
    for left in range(tries, 0, -1):
        with tempfile.TemporaryDirectory() as folder:
            # for servers that run as another user
            os.chmod(folder, 0o755)
            ended = one.tried(folder, program, LONGEST)
        if ended.why_skipped or not unseen_by(ended, one) or left == 1:
            return ended
        tell_of(one, ended)


def tell_of(one, ended):
    os.makedirs(os.path.dirname(MISSED), exist_ok=True)
    with open(MISSED, "a", encoding="utf-8") as told:
        told.write(f"{one.name} is not seen by {unseen_by(ended, one)}:\n{ended.said}\n")


@dataclass
class Tried:
    """A break whose tests end with these in turn."""
    ends: list
    name: str = "a"
    caught: tuple = ("a.py::b",)

    def tried(self, *_):
        return self.ends.pop(0)


PASSED, SEEN = Ended(0, frozenset(), frozenset(), ""), Ended(1, frozenset({"a.py::b"}), frozenset(), "")
TOO_LONG = Ended(-1, frozenset({"a.py::b"}), frozenset(), "")


@pytest.mark.parametrize("ends, last, left", [
    ([SEEN, PASSED], SEEN, 1), ([PASSED, SEEN, PASSED], SEEN, 1), ([PASSED, TOO_LONG, PASSED, SEEN], PASSED, 1)])
def test_what_is_not_seen_is_tried_three_times(monkeypatch, tmp_path, ends, last, left):
    monkeypatch.setitem(globals(), "MISSED", f"{tmp_path}/out/missed")
    one = Tried([*ends])
    assert first_seen(one, "") is last and len(one.ends) == left
    told = tmp_path / "out" / "missed"
    assert (told.read_text() if told.exists() else "").count("a is not seen by ['a.py::b']") == len(ends) - left - 1


def assert_seen(one, program):
    ended = first_seen(one, program)
    if ended.why_skipped:
        pytest.skip(f"its tests can't be run here: {ended.why_skipped}")
    unseen = unseen_by(ended, one)
    assert not unseen, (f"pytest ended with {ended.status}; these did not fail: {unseen}; these did: "
                        f"{sorted(ended.failed)}\n{ended.said[-3_000:]}")


@pytest.mark.by_turns("breaks")
@pytest.mark.timeout(TRIES * LONGEST + 60)
@pytest.mark.parametrize("one", by_name(it for it in BREAKS if not is_of_unit_tests(it)))
def test_is_seen(one, program):
    assert_seen(one, program)


@pytest.mark.by_turns("breaks")
@pytest.mark.timeout(TRIES * LONGEST + 60)
@pytest.mark.parametrize("one", by_name(filter(is_of_unit_tests, BREAKS)))
def test_is_seen_without_a_program(one):
    assert_seen(one, "")
