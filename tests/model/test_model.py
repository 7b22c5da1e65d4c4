"""The program beside the plain model of the rules (tests/support/model), on random runs of lines and messages.

`--seconds N` is how long runs go on. A run that differs is cut down by compare.runs.smallest, and printed as a
script."""
import time
from collections import Counter

import pytest
from support.compare.breaks import BREAKS
from support.compare.runs import Runner, pasted, shown, smallest
from support.model_runs import wanted, written_run

SECONDS, MOST_CUTTING, MOST_RUNS = 30, 60, 400
# eleven to seventeen runs met each request with each of its answers; a busy machine makes few in a minute
ENOUGH = 60
pytestmark = pytest.mark.timeout(1_800)


def first_difference(program, folder, chance, number, met):
    """Writes a run, and returns what tells of its difference, or None; with all that is needed to cut it down."""
    store, steps = written_run(chance, number, met)
    runner = Runner(program, folder, chance.choice((None, 0, 2_000)))
    return runner, store, steps, runner.difference(store, steps)


def told(program, runner, store, steps, found):
    until = time.monotonic() + MOST_CUTTING
    store, steps, found = smallest(runner, store, steps, found, lambda: time.monotonic() > until)
    return (f"they differ in {found.subject}, after {len(steps)} steps over {store}:\n{pasted(program, store, steps)}"
            f"# the model:   {shown(found.expected)}\n# the program: {shown(found.found)}")


def test_program_and_model_answer_alike_and_every_answer_is_met(program, folder, chance, looked, pytestconfig):
    """Each kind of request is accepted, and gets each refusal of its row; each status is met. Until then runs go on,
    however long they take."""
    met, number, begun = Counter(), 0, time.monotonic()
    seconds = pytestconfig.option.seconds or SECONDS
    while time.monotonic() < begun + seconds or number < ENOUGH and unmet(met):
        runner, store, steps, found = first_difference(program, folder, chance, number, met)
        if found:
            pytest.fail(told(program, runner, store, steps, found), pytrace=False)
        number += 1
        looked(True)
    for word in wanted():
        looked(word not in unmet(met), f"{word} is met")


def unmet(met):
    seen = {word for answer in met for word in answer.split()}
    return [word for word in wanted() if word not in seen]


@pytest.mark.slow
@pytest.mark.parametrize("bug", BREAKS)
def test_a_bug_in_the_model_is_seen(program, folder, chance, bug):
    met, (_, patched) = Counter(), BREAKS[bug]
    with patched:
        assert any(first_difference(program, folder, chance, number, met)[3] for number in range(MOST_RUNS))
