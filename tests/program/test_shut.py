"""A server whose database a failed sync has shut ends, and loses nothing; one of whose rows another program spoilt goes
on, and so does one that can't accept a connection for a moment."""
import subprocess

import pytest
from support.failing import Fault
from support.judge import copy_index
from support.running import by_sqlite
from support.serving import ACCEPTED, ALREADY, Index, make_index, sha256
from support.subcommands import End
from support.workload import line_of

STORE = b'{"answer":"fault","name":"Store"}'
# the names that a server looks up to find whether its database is shut, and a state that no name has
LOOKED_UP, NO_STATE = ("x", "is-the-store-shut"), 7
NOT_ACCEPTED = [Fault("accept", 2, how, False) for how in ("EMFILE", "ENFILE", "ECONNABORTED")]


def claim(index, name):
    """The status and the body of the reply to a claim."""
    return index.claim(name)[::2]


def asked(index, path):
    """The status and the body of the reply to a GET."""
    return index.ask("GET", path)[::2]


def is_held(index, name):
    status, body = asked(index, f"/names/{name}")
    return status == 200 and b'"state":"held"' in body


def end_of(index):
    """The status with which the server ends by itself, or None if it goes on; and what it said."""
    try:
        return index.process.wait(timeout=60), index.errors()
    except subprocess.TimeoutExpired:
        return None, index.errors()


def shut_at(path):
    """What stands on standard error if a failure has shut the database at this path."""
    return f"index: Store\nindex: {path}: shut by an earlier failure of the disk\n".encode()


def syncs_before(program, path, failing, under):
    """How many syncs a server makes before its second claim."""
    with Index(program, 2, path, setting=failing.setting(under)) as index:
        claim(index, "a")
        return failing.counted()["fdatasync"]


@pytest.mark.parametrize("later", [0, 1], ids=["first-sync-of-a-claim", "second-sync-of-a-claim"])
def test_a_sync_that_fails_once_ends_serve_and_what_it_acknowledged_is_there(program, failing, folder, looked, later):
    """The claim in progress is answered by Store. The next server takes it again."""
    before = syncs_before(program, make_index(program, f"{folder}/first.db"), failing, folder)
    path = make_index(program, f"{folder}/index.db")
    fault = Fault("fdatasync", before + 1 + later, "EIO", False)
    with Index(program, 10, path, setting=failing.setting(folder, fault)) as index:
        seen = claim(index, "a")
        looked(seen == (200, ACCEPTED), "the claim before", seen)
        seen = claim(index, "b")
        looked(seen == (500, STORE), "the claim in progress", seen)
        seen = end_of(index)
        looked(seen == (1, shut_at(path)), "its end", seen)
    with Index(program, 10, path) as index:
        looked(is_held(index, "a"), "what was acknowledged")
        seen = claim(index, "b")
        looked(seen in ((200, ACCEPTED), (200, ALREADY)), "asked again", seen)
        looked(is_held(index, "b"), "then it is there")


def with_spoilt_rows(end, path, names):
    """An index with the project `frob` and with these, whose rows another program then made invalid."""
    lines = b"".join(line_of("office", do="claim", name=name) for name in ("frob", *names))
    assert end("apply", "--db", path, given=lines).status == 0
    listed = ", ".join(f"'{name}'" for name in names)
    return by_sqlite(path, f"UPDATE names SET state = {NO_STATE} WHERE name IN ({listed})")


@pytest.mark.parametrize("name", LOOKED_UP)
def test_an_invalid_row_of_one_name_that_is_looked_up_ends_no_server(program, end, index_file, looked, name):
    """Looks at it are answered by Store, those at others as ever."""
    with Index(program, 100, with_spoilt_rows(end, index_file, [name])) as index:
        for path in (f"/names/{name}", f"/simple/{name}/"):
            looked(is_held(index, "frob"), f"another name before {path}")
            seen = asked(index, path)
            looked(seen == (500, STORE), path, seen)
        looked(asked(index, "/simple/frob/")[0] == 200, "the page of another name")
        seen = asked(index, "/names/other")
        looked(seen == (200, b'{"name":"other","state":"free"}'), "a name that is free", seen)
        seen = claim(index, "later")
        looked(seen == (200, ACCEPTED), "a claim", seen)
        looked(index.errors() == b"", index.errors())


def test_invalid_rows_of_both_names_that_are_looked_up_end_the_server(program, end, index_file, looked):
    """So these are the names that it looks up."""
    with Index(program, 100, with_spoilt_rows(end, index_file, LOOKED_UP)) as index:
        seen = asked(index, f"/names/{LOOKED_UP[0]}")
        looked(seen == (500, STORE), "the look", seen)
        seen = end_of(index)
        looked(seen == (1, b"index: Store\n"), "its end", seen)


PAGE, FILE, STANDING = "/simple/frob/", "/files/frob/frob-1.0.tar.gz", "/names/frob"
# what another program writes, and the paths that meet it
SPOILT = {
    "a release that is none": ("UPDATE files SET rel = '1.0-' WHERE name = 'frob'", (PAGE,)),
    "an empty release": ("UPDATE files SET rel = '' WHERE name = 'frob'", (PAGE,)),
    "a release in another spelling": ("UPDATE files SET rel = '1.0A' WHERE name = 'frob'", (PAGE,)),
    "a digest that is too short": ("UPDATE files SET digest = x'00' WHERE name = 'frob'", (PAGE, FILE)),
    "a size below 0": ("UPDATE files SET size = -1 WHERE name = 'frob'", (PAGE, FILE)),
    "a moment below 0": ("UPDATE names SET last_upload = -5", ("/simple/", PAGE, STANDING)),
    "a kind that no case has": ("UPDATE cases SET kind = 9", (STANDING,)),
    "attempts below 0": ("UPDATE cases SET attempts = -1", (STANDING,)),
}


@pytest.fixture(scope="module")
def filled_index(program, shared_folder):
    """An index with the project `frob`, which has an owner, a file, a yank and a case, and with a file of another one,
    at which each start looks if the bytes are in a volume."""
    path = make_index(program, f"{shared_folder}/filled.db")
    lines = line_of("office", 1, do="add_user", user="ann", office=False, token_sha256=sha256(b"abc"))
    lines += line_of("office", 1, do="claim", name="frob")
    lines += line_of("office", 1, do="upload", file="frob-1.0.tar.gz", sha256=sha256(b"abc"), hex=b"abc".hex(),
                     requires_python="")
    lines += line_of("office", 1, do="yank", name="frob", release="1.0", reason="broken")
    lines += line_of("abc", 1, do="open_case", name="frob", kind="reuse", contact="mail", work="a fork", why="unused")
    lines += line_of("office", 1, do="claim", name="egg")
    lines += line_of("office", 1, do="upload", file="egg-1.0.tar.gz", sha256=sha256(b"abc"), hex=b"abc".hex(),
                     requires_python="")
    answered = subprocess.run([program, "apply", "--db", path], input=lines, stdout=subprocess.PIPE, timeout=60).stdout
    assert answered == (ACCEPTED + b"\n") * 7
    return path


@pytest.mark.parametrize("what", SPOILT)
def test_an_invalid_row_is_a_fault_of_the_store_and_not_of_memory(program, filled_index, folder, looked, what):
    """Wherever it is met; and the server goes on."""
    statement, met = SPOILT[what]
    path = copy_index(filled_index, f"{folder}/spoilt.db")
    by_sqlite(path, "PRAGMA ignore_check_constraints = ON", statement)
    with Index(program, path=path, at=6) as index:
        for place in met:
            seen = asked(index, place)
            looked(seen == (500, STORE), place, seen)
        looked(asked(index, "/names/other")[0] == 200, "another name")
        looked(index.errors() == b"", index.errors())


def test_apply_answers_store_for_a_release_that_is_none(end, filled_index, folder):
    """And goes on with the next line."""
    statement, _ = SPOILT["a release that is none"]
    path = by_sqlite(copy_index(filled_index, f"{folder}/spoilt.db"), statement)
    lines = line_of("office", 2, do="delete", file="frob-1.0.tar.gz") + b'{"do":"standing","name":"other"}\n'
    assert end("apply", "--db", path, given=lines) == End(0, STORE + b'\n{"name":"other","state":"free"}\n')


@pytest.mark.parametrize("fault", [*NOT_ACCEPTED, Fault("accept", 2, "EMFILE", False, 500)], ids=str)
def test_a_connection_that_cannot_be_accepted_is_tried_again_and_no_client_sees_it(program, failing, folder, looked,
                                                                                   fault):
    """For most of a second, too."""
    with Index(program, 3, f"{folder}/index.db", setting=failing.setting(folder, fault)) as index:
        seen = [is_held(index, "a"), claim(index, "a"), is_held(index, "a")]
        looked(seen == [False, (200, ACCEPTED), True], "the clients", seen)
        seen = end_of(index)
        looked(seen == (0, b""), "its end", seen)
    failed = failing.counted()["failed"]
    looked(failed > 1 if fault.milliseconds else failed == 1, "it was met", failed)
