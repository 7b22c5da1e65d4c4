"""Bugs that are made by themselves in server/ and indexctl/, by the syntax tree and with a seed.

A comparison or a bound moved by one, a sort turned, a number made a float, a lock shared, a condition negated, a line
or a branch left out, an exception swallowed, a default changed, two words turned, one of several left out: of those
that are another program 85 of 100 are caught by a test that is named.

`--mutants 300 --seed 1` draws so many. What was read and is the same program stands in equivalent.json, with why."""
import glob
import json
import os
import time

import pytest
from support.inner_runs import Ended, copy_rooms, run_tests
from support.mutant_runs import (EQUIVALENT, MEMORY, ROOMS, MutantRuns, caught_by, draw, equivalents, function_of,
                                 functions_of, least_caught, others_of, python_files, seen_by_file, units_of, words_in)
from support.places import TOP
from support.python_mutants import is_program, mutants_of

KINDS = {
    "compare": "is_over = count > 1", "bound": "x = left(3)", "order": "x = sorted(names)", "float": "x = size // 2",
    "flag": "fcntl.lockf(file, fcntl.LOCK_EX)", "negate": "if x:\n    y()\nelse:\n    z()", "drop": "go()",
    "branch": "if x:\n    y()", "swallow": "try:\n    x()\nexcept OSError:\n    y()", "default": "def f(x=2):\n    x()",
    "and-or": "x = a and b", "arithmetic": "x = a + b", "constant": "x = True", "called": "x = min(a, b)",
    "return": "def f(x):\n    return x", "part": "x = a or b", "element": "x = [a, b]", "once": "x = [y for y in z]",
    "caught": "try:\n    x()\nexcept (OSError, ValueError):\n    y()", "keyword": "f(x, y=1)", "turned": "f(x, y)",
    "tidy": "x = y.strip()"}


@pytest.mark.parametrize("kind", KINDS)
def test_each_kind_is_made(kind):
    made = [it for it in mutants_of("x.py", KINDS[kind]) if it.kind == kind]
    assert [it for it in made if is_program(it, KINDS[kind])]


@pytest.mark.parametrize("text", ["def f(x: int | None = None) -> tuple[int, 3]: x", "if TYPE_CHECKING:\n    import x",
                                  '"""A text."""', "x = f'{a > 1}'"])
def test_types_and_texts_are_left_alone(text):
    assert not {it.kind for it in mutants_of("x.py", text)} - {"default", "drop"}


def test_a_key_is_the_same_if_lines_move():
    text = "def f(x):\n    return x > 1\n"
    assert [it.key for it in mutants_of("x.py", text)] == [it.key for it in mutants_of("x.py", f"import os\n\n{text}")]


@pytest.mark.parametrize("count, least", [(300, 255), (20, 11), (5, 1), (0, 0)])
def test_how_many_have_to_be_caught(count, least):
    assert least_caught(count) == least


def test_each_file_has_tests():
    table = seen_by_file()
    assert not [it for it in python_files() if not units_of(it) and not others_of(it, table)]


def test_a_test_is_asked_again_without_its_parameters():
    """pytest prints those with `//` as paths, with one `/`, and would find no such test."""
    function = "tests/server/test_unit_metrics.py::test_an_index_is_told_by_its_port_also_if_the_address_has_none"
    assert run_tests(TOP, [function_of(f"{function}[https:/packages.example-443]")]).status == 0


def test_the_unit_tests_that_read_the_crates_pass_in_a_copy(tmp_path):
    """One that fails where nothing is wrong would hide those behind it."""
    names = [os.path.relpath(it, TOP) for room in ROOMS.values() for it in glob.glob(f"{TOP}/{room}/test_unit_*.py")]
    names = [it for it in names if "crates" in words_in(it)]
    ended = run_tests(copy_rooms(str(tmp_path)), names)
    assert names and ended.status == 0, ended.said[-3_000:]


def test_a_copy_has_nothing_that_runs_have_left(tmp_path):
    """Other runs write there meanwhile, and a file that goes as it is copied would end the copy."""
    os.makedirs(f"{TOP}/tests/out", exist_ok=True)
    assert "out" not in os.listdir(f"{copy_rooms(str(tmp_path / 'copy'))}/tests")


@pytest.mark.parametrize("status", [-15, 2, 3, 4])
def test_a_mutant_that_ends_pytest_itself_is_caught_by_no_test(status):
    """It refuses no run: of many mutants it is one that is not caught."""
    assert caught_by(Ended(status, frozenset(), frozenset(), "")) == ""


@pytest.mark.parametrize("memory, status", [(MEMORY, 1), (0, 0)])
def test_a_mutant_without_a_bound_fails_by_one(tmp_path, memory, status):
    """Else it takes all memory of the machine, and the kernel kills whatever has most. (What is not written to takes
    none.)"""
    (tmp_path / "test_x.py").write_text(f"def test_x():\n    bytearray({MEMORY + (1 << 28)})\n")
    assert run_tests(str(tmp_path), ["test_x.py"], memory=memory).status == status


def test_what_is_the_same_program_is_there():
    """Each of the list is a mutant of today's code; one that is not goes."""
    files = python_files()
    assert not [it for it in equivalents() if it[0] not in files or it[1] not in functions_of(files[it[0]])]
    every = {it.key for file in {it[0] for it in equivalents()} for it in mutants_of(file, files[file])}
    assert not {*equivalents()} - every


@pytest.mark.by_turns("mutants")
@pytest.mark.timeout(24 * 3_600)
def test_mutants_are_caught(pytestconfig, program):
    option = pytestconfig.option
    seed = "{}/{}".format(*option.share) if option.share else pytestconfig.seed
    drawn = draw(option.mutants or 20, seed)
    until = time.monotonic() + (option.seconds or float("inf"))
    results = []
    for one in MutantRuns(program, until).all(drawn, option.mutant_jobs, time.monotonic):
        results.append(one)
        print(one, flush=True)
        keep(results)
    others = [it for it in results if not it.why_equivalent]
    caught = [it for it in others if it.caught_by]
    first = (f"seed {seed}: {len(caught)} of {len(others)} mutants are caught, {len(results) - len(others)} are the "
             f"same program by {os.path.basename(EQUIVALENT)}, {len(drawn) - len(results)} were not tried")
    print(first)
    survived = [str(it) for it in others if not it.caught_by]
    assert others and len(caught) >= least_caught(len(others)), "\n".join([first, *survived])


def keep(results):
    """Keeps what became of each, after each: a long run may be interrupted."""
    os.makedirs(f"{TOP}/tests/out", exist_ok=True)
    with open(f"{TOP}/tests/out/mutants.json", "w", encoding="utf-8") as kept:
        json.dump([{**it.mutant.told(), "caught_by": it.caught_by, "same": it.why_equivalent} for it in results], kept)
