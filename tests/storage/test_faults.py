"""Calls of the system fail under the program, one in turn or all from one on.

Some thirty requests of every kind are asked, while a preloaded library (fail_calls.c) has an open, a read, a write, a
sync or a cut of the database's files fail, or a read of standard input, a write of an answer, or a call on a
connection. Each answer has to be the verdict, or Store. Then the files are opened again: the rows, by Python's sqlite3,
have to be those that the accepted requests make, or these and one request that was answered by Store since; `check`
prints 0; and the same request asked again gets its verdict. What is right is what the program answers over tables in
memory. `--rounds N` tries about N faults over all tests of this file."""
import os
import time

import pytest
from support.failing import FILE_KINDS, PEER_KINDS, STREAM_KINDS, Failing
from support.fault_runs import FaultRuns
from support.faults_of_serve import LOOKS, MOMENT, Judged, Served, file_fault, peer_fault
from support.judge import Judge, answers_are_right, seen_by_sqlite
from support.late_reads import ALL, JOBS, LateReads, faults_at, index_with_many
from support.old_version import make_old_version
from support.running import run
from support.serving import OFFICE
from support.workload import REQUESTS, lines_of

ROUNDS = 600
# the parts of the rounds
OF_INIT, OF_MIGRATION, OF_APPLY, OF_LATE_READS, OF_STREAMS, OF_SERVE = 0.1, 0.1, {0: 0.25, 16: 0.15}, 0.1, 0.1, 0.3


# a program that is not proved takes ten times as long for the many files that are read late
pytestmark = [pytest.mark.slow, pytest.mark.timeout(1_200)]


@pytest.fixture(scope="module")
def failing(shared_folder):
    return Failing(shared_folder)


@pytest.fixture(scope="module")
def judge(program, shared_folder):
    return Judge(program, shared_folder)


@pytest.fixture(scope="module")
def many(program, judge, shared_folder):
    """An index of more pages than are cached of a database."""
    return index_with_many(program, judge, f"{shared_folder}/many.db")


@pytest.fixture
def runs(program, failing, judge, folder, chance, looked, pytestconfig):
    os.mkdir(f"{folder}/tried")
    until = time.monotonic() + (pytestconfig.option.seconds or float("inf"))
    return FaultRuns(program, failing, judge, folder, chance, looked, until)


@pytest.fixture
def count(pytestconfig):
    """How many faults of one kind are tried, of a share of the rounds that goes to so many kinds."""
    def of(share, kinds):
        return max(1, int((pytestconfig.option.rounds or ROUNDS) * share) // len(kinds))
    return of


@pytest.mark.parametrize("kind", FILE_KINDS)
def test_init_makes_an_index_or_tells_why(runs, kind, count):
    words = "init", "--db", runs.path, *OFFICE
    for fault in runs.each(runs.some(kind, runs.calls(kind, *words), count(OF_INIT, FILE_KINDS))):
        runs.begin("")
        ended = runs.run(fault, *words)
        is_made = (ended.returncode, ended.stdout, ended.stderr) == (0, b"created\n", b"")
        runs.looked(is_made or runs.ended_well(fault, ended, False) and not ended.stdout, fault, ended)
        if not is_made:
            again = run(runs.program, *words)
            is_there = again.stderr.startswith(b"index: NotEmpty\n")
            runs.looked(again.stdout == b"created\n" or is_there, "again", fault, again)
        runs.is_kept(lines_of(REQUESTS[:1]), (), fault)


@pytest.mark.parametrize("kind", FILE_KINDS)
def test_migration_has_every_row_or_is_told_as_store(runs, kind, count):
    first, words = make_old_version(f"{runs.folder}/old.db"), ("check", "--db", runs.path)
    calls = runs.calls(kind, *words, first=first)
    _, wanted = seen_by_sqlite(runs.path)
    for fault in runs.each(runs.some(kind, calls, count(OF_MIGRATION, FILE_KINDS))):
        runs.begin(first)
        ended = runs.run(fault, *words)
        is_well = (ended.returncode, ended.stdout) == (0, b"0\n") or not ended.stdout
        runs.looked(is_well and runs.ended_well(fault, ended, True), fault, ended)
        again = run(runs.program, *words)
        runs.looked((again.returncode, again.stdout) == (0, b"0\n"), "again", fault, again)
        is_whole, rows = seen_by_sqlite(runs.path)
        runs.looked(is_whole and rows == wanted, "the rows", fault, rows)


@pytest.mark.parametrize("kind", FILE_KINDS)
@pytest.mark.parametrize("before", OF_APPLY, ids="behind_{}_requests".format)
def test_apply_answers_the_verdict_or_store(runs, before, kind, count):
    """Lines on a database, behind lines that were applied before, of a run that was killed."""
    lines = lines_of(REQUESTS)
    first, rest = runs.killed_after(lines[:before]), lines[before:]
    words, given = ("apply", "--db", runs.path), b"".join(rest)
    calls = runs.calls(kind, *words, given=given, first=first)
    for fault in runs.each(runs.some(kind, calls, count(OF_APPLY[before], FILE_KINDS))):
        runs.begin(first)
        ended = runs.run(fault, *words, given=given)
        printed = tuple(ended.stdout.splitlines())
        answers = runs.judge.answers(lines[:before]) + printed
        is_well = runs.ended_well(fault, ended, len(printed) == len(rest)) and len(printed) in (0, len(rest))
        runs.looked(is_well, "its end", fault, ended)
        runs.looked(answers_are_right(runs.judge, lines, answers), "its answers", fault, ended)
        runs.is_kept(lines, answers, fault)


@pytest.mark.parametrize("kind", STREAM_KINDS)
def test_apply_ends_where_its_input_or_output_fails(runs, kind, count):
    lines, words = lines_of(REQUESTS), ("apply", "--db", runs.path)
    whole, given = runs.judge.answers(lines), b"".join(lines)
    calls = runs.calls(kind, *words, given=given, first=runs.judge.new)
    for fault in runs.each(runs.some(kind, calls, count(OF_STREAMS, STREAM_KINDS))):
        runs.begin(runs.judge.new)
        ended = runs.run(fault, *words, given=given)
        printed = tuple(ended.stdout.split(b"\n"))
        # of the last answer a part may have gone out
        answered = len(printed) - 1
        is_front = printed[:-1] == whole[:answered] and (printed[-1] == b"" or whole[answered].startswith(printed[-1]))
        if fault.is_harmless() or not runs.failing.counted()["failed"]:
            is_well, made = (ended.returncode, ended.stderr, answered) == (0, b"", len(lines)), len(lines)
        else:
            said = b"index: ReadFault\n" if kind == "read" else b"index: WriteFault\n"
            is_well, made = (ended.returncode, ended.stderr) == (1, said), answered + (kind == "write")
        runs.looked(is_well and is_front, fault, ended)
        runs.is_kept(lines[:made] or lines[:1], whole[:made], fault)


def of_a_row(asked):
    """What no look at bytes of files asks. If these lie in a volume, all pages of the database stay cached."""
    marks = () if "/files/" in asked.name else pytest.mark.one_file("no page is read again")
    return pytest.param(asked, marks=marks, id=str(asked))


@pytest.mark.parametrize("asked", map(of_a_row, ALL))
def test_a_read_that_fails_stops_its_request_alone(runs, many, asked, count):
    """Behind the opening, under `serve`, which caches nothing here: the next request is right once the disk is well."""
    LateReads(runs, many, asked).all(count(OF_LATE_READS / 3, (*ALL, *JOBS)))


@pytest.mark.parametrize("job", JOBS)
def test_a_job_that_can_not_read_goes_through_again(runs, many, job, count):
    """`report` and `check` end as Store, and go through when they are run again."""
    words = job, "--db", runs.path
    calls = runs.calls("pread", *words, first=many)
    whole = run(runs.program, *words)
    for fault in runs.each(faults_at(runs.chance, range(1, calls + 1), count(OF_LATE_READS / 3, (*ALL, *JOBS)))):
        runs.begin(many)
        ended = runs.run(fault, *words)
        is_well = ended.returncode == 1 and not ended.stdout and fault.may_be_told(ended.stderr, runs.path)
        runs.looked(is_well, fault, ended)
        again = run(runs.program, *words)
        runs.looked((again.returncode, again.stdout, again.stderr) == (0, whole.stdout, b""), "again", fault, again)


def served(runs, fault=None):
    runs.begin(runs.judge.new)
    return Served(runs.program, runs.path, runs.failing.setting(runs.under, fault))


def test_serve_answers_by_the_verdict(runs):
    """Without a fault: what the other runs are held to."""
    lines, judged = lines_of(REQUESTS, MOMENT), Judged(runs, "without a fault", served(runs))
    judged.check("answers", tuple(judged.answers(None)) == runs.judge.answers(lines) and judged.served.status == 0
                 and all(judged.whole))
    judged.check("looks", [part[0] for part in judged.parts[-len(LOOKS):]] == [200] * len(LOOKS))
    judged.looks_are_right(lines)


@pytest.mark.parametrize("kind", FILE_KINDS)
def test_serve_answers_the_verdict_or_store(runs, kind, count):
    lines = lines_of(REQUESTS, MOMENT)
    served(runs)
    for fault in runs.each(runs.some(kind, runs.failing.counted()[kind], count(OF_SERVE / 2, FILE_KINDS))):
        file_fault(runs, Judged(runs, fault, served(runs, fault)), fault, lines)


@pytest.mark.parametrize("kind", PEER_KINDS)
def test_serve_names_a_connection_that_breaks_off_and_serves_the_others(runs, kind, count):
    lines = lines_of(REQUESTS, MOMENT)
    served(runs)
    for fault in runs.each(runs.some(kind, runs.failing.counted()[kind], count(OF_SERVE / 2, PEER_KINDS))):
        peer_fault(runs, Judged(runs, fault, served(runs, fault)), fault, lines)
