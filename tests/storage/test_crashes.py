"""What a crash may leave of a database, its log and its volume is made, and opened with the program.

Runs of the program are recorded by a preloaded library (record_calls.c), with each write and each sync of these files,
and with each answer. For places of each record an image of the files is made, in which writes that were not synced are
kept, lost, come in part, or are garbled. SQLite has to find it sound, by Python's sqlite3, and the program has to open
it: `check` prints 0, and the rows are those of what was answered, or with what was in hand. Some openings are recorded
themselves, and crash a second time. The tests also try themselves: of records from which syncs are left out images have
to be found that are refused. `--rounds N` makes about N images over all tests of this file."""
import time

import pytest
from support.chance import chosen
from support.crash_runs import Opening, Recording
from support.images import ANSWERED, DATABASE, FOLDER, LOG, SYNCED, VOLUME, WRITTEN, images_of, places_of
from support.judge import Judge

ROUNDS = 400
# each run by its name, its part of the rounds, and in how many tests they are made
RUNS = {"apply": (0.45, 5), "opening": (0.15, 2), "init": (0.15, 2), "migration": (0.2, 4), "serve": (0.05, 4)}
# of so many images one is opened with a record, and crashes again
AGAIN = 5
# how many images of a run without syncs are made at once, and how often
MOST_SPOILT, TRIALS = 250, 3


# a program that is not proved takes ten times as long for the large file of `serve`
pytestmark = [pytest.mark.slow, pytest.mark.timeout(1_200)]


@pytest.fixture(scope="module")
def recording(program, shared_folder):
    return Recording(program, Judge(program, shared_folder), shared_folder)


@pytest.fixture
def opening(program, recording, folder):
    return Opening(program, recording, f"{folder}/opened.db")


@pytest.fixture
def is_over(pytestconfig):
    """Whether --seconds are over."""
    until = time.monotonic() + (pytestconfig.option.seconds or float("inf"))
    return lambda: time.monotonic() > until


@pytest.mark.parametrize("name, part", [(name, part) for name, (_, parts) in RUNS.items() for part in range(parts)])
def test_a_crash_leaves_what_was_answered(recording, opening, chance, looked, is_over, name, part, pytestconfig):
    run_of = recording.run_of(name)
    share, parts = RUNS[name]
    count = max(1, int((pytestconfig.option.rounds or ROUNDS) * share) // parts)
    # of the places each test has its own
    places = chosen(chance, places_of(run_of.entries)[part::parts], count)
    for at, (number, how, image) in enumerate(images_of(run_of.first, run_of.entries, places, chance)):
        if is_over():
            break
        wrong = opening.wrong(run_of, number, image)
        looked(wrong is None, f"entry {number}, writes {how}", wrong)
        if at % AGAIN == 0 and None not in run_of.allowed(number):
            crash_again(opening, run_of, number, image, chance, looked)


def crash_again(opening, run_of, number, image, chance, looked):
    """A second crash, while the files that the first left are opened and closed."""
    entries = opening.record_of(image)
    looked(entries, f"entry {number}: the opening has no record")
    for second, how, left in images_of(image, entries, chosen(chance, places_of(entries), 2), chance):
        wrong = opening.wrong(run_of, number, left)
        looked(wrong is None, f"entry {number}, again at {second}, writes {how}", wrong)


def test_each_change_is_synced_twice_before_it_is_told(recording, looked):
    """What a crash garbles of the first write doesn't count yet."""
    apply, syncs, is_written = recording.run_of("apply"), 0, False
    for number, entry in enumerate(apply.entries):
        if entry.done == ANSWERED:
            if is_written:
                looked(syncs >= 2, f"answer {apply.answers[number]}: {syncs} syncs")
            syncs, is_written = 0, False
        elif entry.file == LOG:
            syncs, is_written = syncs + (entry.done == SYNCED), is_written or entry.done == WRITTEN
    assert looked.count, "no change was told"


def syncs_of(file):
    return lambda run_of: {at for at, entry in enumerate(run_of.entries) if entry.file == file and entry.done == SYNCED}


def last_syncs_before_answers(run_of):
    """Of the two syncs of a change the second stands right before the answer."""
    logs = syncs_of(LOG)(run_of)
    told = [at for at in range(1, len(run_of.entries)) if run_of.answers[at] > run_of.answers[at - 1]]
    return {max((at for at in logs if at < number), default=-1) for number in told}


@pytest.mark.parametrize("name, left_out", [
    pytest.param("apply", syncs_of(LOG), id="syncs_of_the_log"),
    pytest.param("apply", last_syncs_before_answers, id="the_sync_before_each_answer"),
    pytest.param("opening", syncs_of(DATABASE), id="syncs_of_the_database"),
    pytest.param("init", syncs_of(FOLDER), id="syncs_of_the_folder"),
    pytest.param("apply", syncs_of(VOLUME), id="syncs_of_the_volume", marks=pytest.mark.with_volume)])
def test_without_syncs_an_image_is_refused(recording, opening, chance, looked, name, left_out):
    """The tests try themselves."""
    run_of = recording.run_of(name)
    spoilt, made = run_of.without_syncs(left_out(run_of)), 0
    for _ in range(TRIALS):
        places = chosen(chance, places_of(spoilt.entries), MOST_SPOILT)
        for number, _, image in images_of(spoilt.first, spoilt.entries, places, chance):
            made += 1
            if opening.wrong(spoilt, number, image):
                return
    looked(False, f"none of {made} images is refused")
