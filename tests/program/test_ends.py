"""The program exits with the right status and message, whatever its words, its input and its output are."""
import os
import re
import shutil
import socket
import subprocess
from contextlib import contextmanager

import pytest
from support.places import TOP
from support.running import by_sqlite
from support.serving import OFFICE, Index, Running, make_index, sha256
from support.subcommands import ALL, WORKING, End, words_of
from support.workload import line_of

ACCEPTED = b'{"answer":"accepted"}\n'
WRITE_FAULT = End(1, b"", b"index: WriteFault\n")
REPORT = b"""frob-nest                held              1              3     1073741824
spam                     prohibited        0              0              0
"""
FILE = {"file": "frob_nest-1.0.tar.gz", "sha256": sha256(b"abc"), "hex": b"abc".hex(), "requires_python": ""}
MORE = line_of("abc", do="upload", **FILE) + line_of("office", do="prohibit", name="spam")
LOOK = "/files/frob-nest/frob_nest-1.0.tar.gz"
NO_INDEX = {"NotAnIndex": "not an index", "OtherVersion": "an index of another version"}


def told(name, path, cause):
    """The end of this name on the database at this path."""
    return End(1, b"", f"index: {name}\nindex: {path}: {cause}\n".encode())


@contextmanager
def full_device():
    with open("/dev/full", "wb") as full:
        yield full


@contextmanager
def closed_pipe():
    """A pipe that nobody reads."""
    reading, writing = os.pipe()
    os.close(reading)
    with open(writing, "wb") as closed:
        yield closed


@pytest.fixture
def path(index_file, end, stored_lines, stored_answers):
    """An index behind the stored run, an upload and a ban of a name."""
    assert end("apply", "--db", index_file, given=stored_lines) == End(0, stored_answers)
    assert end("apply", "--db", index_file, given=MORE) == End(0, ACCEPTED * 2)
    return index_file


# input and output

def test_the_stored_run_is_answered(end, stored_lines, stored_answers):
    assert end("apply", given=stored_lines) == End(0, stored_answers)


def test_no_line_has_no_answer(end):
    assert end("apply") == End(0)


@pytest.mark.parametrize("output", [full_device, closed_pipe])
def test_answers_that_cannot_be_written_are_a_write_fault(end, stored_lines, output):
    with output() as stdout:
        assert end("apply", given=stored_lines, stdout=stdout) == WRITE_FAULT


@pytest.mark.parametrize("word", ["--help", "--version"])
def test_help_that_cannot_be_written_is_a_write_fault(end, word):
    with full_device() as full:
        assert end(word, stdout=full) == WRITE_FAULT


def test_init_that_cannot_tell_is_a_write_fault(end, folder):
    with full_device() as full:
        assert end("init", "--db", f"{folder}/full.db", *OFFICE, stdout=full) == WRITE_FAULT


@pytest.mark.parametrize("job", ["report", "check"])
def test_a_report_or_a_count_that_cannot_be_written_is_a_write_fault(end, path, job):
    with full_device() as full:
        assert end(job, "--db", path, stdout=full) == WRITE_FAULT


def test_a_folder_as_input_is_a_read_fault(end):
    folder = os.open(TOP, os.O_RDONLY)
    try:
        assert end("apply", stdin=folder) == End(1, b"", b"index: ReadFault\n")
    finally:
        os.close(folder)


# words

@pytest.mark.parametrize("words", [["aply"], ["apply", "--frob"], ["apply", "frob"], [], ["apply", "--version"]],
                         ids=["no-subcommand", "no-option", "a-word-too-many", "no-word", "version-of-a-subcommand"])
def test_words_that_are_refused_have_status_2_and_a_reason(end, words):
    ended = end(*words)
    assert ended.status == 2 and ended.error and not ended.output, ended


def test_a_word_that_is_not_utf_8_is_refused(end):
    assert end(b"appl\xff") == End(2, b"", b"error: a word of the command line is not UTF-8\n")


@pytest.mark.parametrize("word", ["--help", "help"])
def test_help_names_the_subcommands(end, word):
    ended = end(word)
    assert ended.status == 0 and not ended.error, ended
    assert {*ALL, "help"} == {*re.findall(r"^  ([a-z]+) ", ended.output.decode(), re.M)}, ended


@pytest.mark.skipif(not shutil.which("rt"), reason="the kit is not installed")
def test_the_version_names_the_kit_that_is_here(end):
    """In brackets is the kit that built the program, whatever its revision; before it, if nothing was proved, that."""
    said = subprocess.run(["rt", "version"], stdout=subprocess.PIPE, check=True, timeout=60).stdout.strip()
    kit = re.sub(rb"^(rattle-kit-\d+)[a-z]* ", rb"\1 ", said)
    ended = end("--version")
    named = re.fullmatch(rb"index \d+\.\d+\.\d+ \((NOT PROVED, )?" + re.escape(kit) + rb"\)\n", ended.output)
    assert ended.status == 0 and named and not ended.error, (ended, kit)
    assert end("-V") == ended


# databases

def test_init_makes_an_index_once(end, folder):
    words = "init", "--db", f"{folder}/init.db", *OFFICE
    assert end(*words) == End(0, b"created\n")
    assert end(*words) == told("NotEmpty", f"{folder}/init.db", "a table of an index is there already")


def empty_file(path):
    open(path, "w").close()


def other_tables(path):
    by_sqlite(path, "CREATE TABLE notes (id INTEGER PRIMARY KEY, note TEXT)")


def another_version(path):
    by_sqlite(path, "UPDATE meta SET version = 9")


def no_version(path):
    by_sqlite(path, "DELETE FROM meta")


@pytest.mark.parametrize("job", WORKING)
@pytest.mark.parametrize("make, name", [(empty_file, "NotAnIndex"), (other_tables, "NotAnIndex"),
                                        (another_version, "OtherVersion"), (no_version, "NotAnIndex")],
                         ids=lambda it: getattr(it, "__name__", ""))
@pytest.mark.told("`OtherVersion` after going back")
def test_a_database_that_is_no_index_is_refused(program, end, folder, job, make, name):
    path = f"{folder}/other.db"
    if make in (another_version, no_version):
        make_index(program, path)
    make(path)
    assert end(*words_of(job, path)) == told(name, path, NO_INDEX[name])


def test_init_refuses_a_database_with_a_table_of_such_a_name(end, folder):
    path = f"{folder}/other.db"
    other_tables(path)
    by_sqlite(path, "CREATE TABLE names (name TEXT)")
    assert end("init", "--db", path, *OFFICE) == told("NotEmpty", path, "a table of an index is there already")


def test_the_tables_are_there_after_a_restart(end, index_file, stored_lines, stored_answers):
    """The last line of the stored run asks what stands: asked alone it has the same answer."""
    last, told_last = (text.splitlines(keepends=True)[-1] for text in (stored_lines, stored_answers))
    assert end("apply", "--db", index_file, given=stored_lines) == End(0, stored_answers)
    assert end("apply", "--db", index_file, given=last) == End(0, told_last)


def test_the_report_has_a_row_of_each_name(end, path):
    assert end("report", "--db", path) == End(0, REPORT)


def test_check_finds_no_wrong_charge(end, path):
    assert end("check", "--db", path) == End(0, b"0\n")


@pytest.mark.parametrize("count", [1, 2, 10, 100])
def test_check_counts_wrong_charges(end, path, count):
    more = [f"n{number}" for number in range(count - 1)]
    given = b"".join(line_of("abc", do="claim", name=name) for name in more)
    assert end("apply", "--db", path, given=given) == End(0, ACCEPTED * len(more))
    listed = ", ".join(f"'{name}'" for name in ("frob-nest", *more))
    by_sqlite(path, f"UPDATE names SET charged = 4 WHERE name IN ({listed})")
    assert end("check", "--db", path) == End(1, b"%d\n" % count)


# addresses

def has_address(family, host):
    """Whether this machine has the address: some have none of IPv6."""
    try:
        with socket.socket(family) as tried:
            tried.bind((host, 0))
    except OSError:
        return False
    return True


@pytest.mark.parametrize("family, host", [(socket.AF_INET, "127.0.0.2"), (socket.AF_INET6, "::1")],
                         ids=["IPv4", "IPv6"])
def test_serve_listens_where_it_is_asked_to_and_says_where(program, path, looked, family, host):
    """It chooses the port itself."""
    if not has_address(family, host):
        pytest.skip(f"this machine has no address {host}")
    address = f"[{host}]" if family == socket.AF_INET6 else host
    words = [program, "serve", "--db", path, "--listen", f"{address}:0", "--requests", "1"]
    with Running(words, stdout=subprocess.PIPE, stderr=subprocess.DEVNULL) as serving:
        told = serving.process.stdout.readline().decode()
        found = re.fullmatch(rf"listening on {re.escape(address)}:(\d+)\n", told)
        looked(found, told)
        with socket.socket(family) as peer:
            peer.settimeout(10)
            peer.connect((host, int(found[1])))
            peer.sendall(b"GET /names/x HTTP/1.1\r\n\r\n")
            reply = peer.recv(1 << 16)
        looked(reply.startswith(b"HTTP/1.1 200 OK\r\n"), reply)


def test_serve_gives_a_file_of_the_database(program, path):
    with Index(program, path=path) as index:
        status, _, body = index.ask("GET", LOOK)
    assert (status, body) == (200, b"abc")


@pytest.mark.one_file("the bytes of the last file of a volume are looked at by each start")
@pytest.mark.told("`index: Store`")
def test_bytes_with_another_digest_are_a_fault_of_the_store(program, path):
    by_sqlite(path, "UPDATE blobs SET body = x'61'")
    with Index(program, path=path) as index:
        status, _, body = index.ask("GET", LOOK)
    assert (status, body) == (500, b'{"answer":"fault","name":"Store"}')


def test_each_answer_is_written_at_once(program):
    """Whoever reads the pipe, or ends the program, sees whole lines alone. A socket of packets shows each write."""
    ours, its = socket.socketpair(socket.AF_UNIX, socket.SOCK_SEQPACKET)
    with ours, subprocess.Popen([program, "apply"], stdin=subprocess.PIPE, stdout=its) as run:
        its.close()
        run.stdin.write(2 * line_of("office", do="claim", name="frob") + b'{"standing":"frob"}\n')
        run.stdin.close()
        packets = [*iter(lambda: ours.recv(1 << 16), b"")]
    assert [it.count(b"\n") for it in packets] == [1, 1, 1] and all(it.endswith(b"\n") for it in packets), packets
