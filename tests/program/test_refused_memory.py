"""Each allocation is refused in turn: what is asked is answered rightly, or by a fault that changed nothing, or the run
or the connection ends as OutOfMemory, or a page is cut.

Refused are all allocations that a running `apply` makes for a line of four transcripts, in memory and on a database,
and that a running `serve` makes for messages of all kinds, with answers cached and without; and one in `--step` of
those of whole runs of each subcommand. After one in `--step`, and after each that went through, the same is asked again
and gets its verdict, and the tables are those of what was accepted."""
import pytest
from support.judge import Judge, copy_index
from support.old_version import make_old_version
from support.planted import catches
from support.refused import (ASKED, FAULT, KEPT, KEPT_BYTES, NO_MEMORY, Refusing, all_lines, is_end, stored_run,
                             users_and_frob)
from support.running import kill_after, run
from support.serving import OFFICE
from support.subcommands import NO_ADDRESS, End, words_of
from support.workload import REQUESTS, lines_of

IN_MEMORY = pytest.mark.parametrize("is_in_memory", [
    pytest.param(True, id="in-memory"), pytest.param(False, id="on-a-database", marks=pytest.mark.slow)])
NO_LISTENING = f"index: Listen\nindex: {NO_ADDRESS[1]}: not an IP address with a port\n".encode()
# whole runs are shared out among so many tests
SHARES = 4
SHARED = pytest.mark.parametrize("share", [(at, SHARES) for at in range(SHARES)], ids=lambda it: f"share-{it[0]}")
pytestmark = pytest.mark.timeout(900)


def named_lines():
    """A line and its answer, with those before it: each that is not in a transcript before."""
    known = set()
    for name, asked in all_lines().items():
        for at, (line, answer) in enumerate(asked):
            front = tuple(line for line, _ in asked[:at])
            if front + (line,) not in known:
                known.add(front + (line,))
                yield pytest.param(front, line, answer, id=f"{name}-{at}".replace(" ", "-"))


def name_of(asked):
    return [f"{at}-{message.split(b' HTTP')[0].decode().replace(' ', '-').replace('/', '_')}"
            for at, (message, _) in enumerate(asked)]


@pytest.fixture(scope="module")
def judge(program, shared_folder):
    return Judge(program, shared_folder)


@pytest.fixture(scope="module")
def held_index(program, judge, shared_folder):
    """An index in which ann holds `frob`."""
    path = copy_index(judge.new, f"{shared_folder}/held.db")
    run(program, "apply", "--db", path, given=b"".join(line for line, _ in users_and_frob()))
    return path


@pytest.fixture(scope="module")
def logged_index(program, judge, shared_folder):
    """An index with all its changes in its log."""
    return kill_after(program, copy_index(judge.new, f"{shared_folder}/logged.db"), lines_of(REQUESTS))


@pytest.fixture
def refusing(program, folder, refusals, judge, looked, pytestconfig):
    return Refusing(program, folder, refusals, judge, looked, pytestconfig.option.step)


@IN_MEMORY
@pytest.mark.parametrize("front, line, answer", named_lines())
def test_a_line_gets_its_verdict_or_a_fault_that_changed_nothing(refusing, is_in_memory, front, line, answer):
    refusing.line(front, line, answer, None if is_in_memory else refusing.judge.new)


@pytest.mark.parametrize("at", range(len(ASKED)), ids=name_of(ASKED))
def test_a_message_gets_its_reply_or_a_fault_that_changed_nothing(refusing, held_index, at):
    refusing.message(ASKED, at, held_index, 0)


@pytest.mark.parametrize("at", range(len(KEPT)), ids=name_of(KEPT))
def test_a_message_to_a_server_that_caches_gets_its_reply_or_a_fault(refusing, held_index, at):
    refusing.message(KEPT, at, held_index, KEPT_BYTES)


@pytest.mark.slow
@SHARED
@IN_MEMORY
def test_the_stored_run_answers_its_lines_or_ends(refusing, share, is_in_memory, looked):
    lines = tuple(line for line, _ in stored_run())
    words = () if is_in_memory else ("--db", refusing.path)
    for name, ended in refusing.runs(share, refusing.judge.new, "apply", *words, given=b"".join(lines)):
        printed = ended.output.splitlines()
        kept = tuple(line for line, answer in zip(lines, printed) if answer != FAULT)
        is_front = refusing.judge.answers(kept) == tuple(answer for answer in printed if answer != FAULT)
        is_whole = (ended.status, ended.error) == (0, b"") and len(printed) == len(lines)
        looked(is_front and (is_whole or (ended.status, ended.error) == (1, NO_MEMORY)), name, ended)
        if words:
            refusing.is_kept(name, kept)


@catches("tests/support/refusals.py", "= 0, number, 0", "= 0, 0, 0", case="share-0",
         also=["test_what_reads_alone_changes_no_row[check-share-0]"])
@pytest.mark.slow
@SHARED
def test_init_makes_an_index_or_none(refusing, share, end, looked):
    words = "init", "--db", refusing.path, *OFFICE
    for name, ended in refusing.runs(share, None, *words):
        is_made = ended == End(0, b"created\n")
        looked(is_made or ended == End(1, b"", NO_MEMORY), name, ended)
        again = end(*words)
        is_there = again.error.startswith(b"index: NotEmpty\n")
        looked(is_there or not is_made and again.output == b"created\n", f"{name}: again", again)
        refusing.is_kept(name, ())


@pytest.mark.slow
@SHARED
def test_a_migration_has_every_row(refusing, share, folder, looked):
    """Of a database of version 1, by `check`."""
    first = make_old_version(f"{folder}/old.db")
    wanted = refusing.rows_behind(first)
    for name, ended in refusing.runs(share, first, "check", "--db", refusing.path):
        looked(is_end(ended, b"0\n"), name, ended)
        looked(refusing.rows_behind(refusing.path) == wanted, f"{name}: the rows")


@pytest.mark.slow
@SHARED
@pytest.mark.parametrize("command", ["check", "report", "serve"])
def test_what_reads_alone_changes_no_row(refusing, share, logged_index, end, looked, command):
    """`serve`, until it would listen."""
    wanted = refusing.rows_behind(logged_index)
    whole = end(*words_of(command, copy_index(logged_index, refusing.path)))
    output = None if command == "serve" else whole.output
    for name, ended in refusing.runs(share, logged_index, *words_of(command, refusing.path)):
        is_no_address = command == "serve" and ended == whole == End(1, b"", NO_LISTENING)
        looked(is_no_address or is_end(ended, output), name, ended)
        looked(refusing.rows_behind(refusing.path) == wanted, f"{name}: the rows")
