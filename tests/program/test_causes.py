"""Each cause of `index: Store` is printed in its words on a second line with the path, and a run that fails so leaves
what is there as it was."""
import os
import shutil
import sqlite3
import subprocess
from contextlib import closing

import pytest
from support.failing import BESIDE, FAILED_DISK, FULL, NO_RIGHT, NOT_MADE, Fault
from support.needed import want_command
from support.old_version import make_old_version
from support.running import by_sqlite
from support.serving import Index, make_index, sha256
from support.subcommands import ALL, PATHS, SUMS, End, words_of
from support.volumes import VOLUME, copy_volume

NOBODY = "setpriv", "--reuid=65534", "--regid=65534", "--clear-groups"
NO_FILE, NO_FOLDER = "no such file", "no such folder"
NO_DATABASE, OBJECT = "no database that this program can read", "an object that no index has: "
UTF_16 = "PRAGMA encoding = 'UTF-16le'"
OTHER_TABLES = "tables that are not as an index has them"
NOT_NEW = "not new, and only a new file gets page sums"
INITS = "init", SUMS
MORE = {"an index": ("frob", "CREATE INDEX frob ON names (shown)"), "statistics": ("sqlite_stat1", "ANALYZE"),
        "a table": ("notes", "CREATE TABLE notes (id INTEGER PRIMARY KEY, note TEXT)"),
        "a view": ("held", "CREATE VIEW held AS SELECT name FROM names"),
        "a trigger": ("late", "CREATE TRIGGER late AFTER INSERT ON users BEGIN DELETE FROM bans; END")}
# by name the bytes of a sound index made others, and the cause
DAMAGED = {"cut in a page": (lambda whole: whole[:6000], "damaged"),
           "cut after a page": (lambda whole: whole[:4096], "damaged"),
           "no head": (lambda whole: b"\0" * 100 + whole[100:], NO_DATABASE)}
NO_DIGEST = "--token-sha256 is not 64 digits of 0-9a-f"
OF_NO_TOKEN = "--token-sha256 is the digest of the empty text"
NO_USER = "--user is not 1 to 32 of a-z and 0-9"
TOKEN = sha256(b"office")
# who can't be the first user, and why; where both are wrong the digest is told, which is looked at first
FIRST_USERS = [("Office", TOKEN, NO_USER), ("of-fice", TOKEN, NO_USER), ("o" * 33, TOKEN, NO_USER),
               ("", TOKEN, NO_USER), ("office", "BA78", NO_DIGEST), ("office", TOKEN.upper(), NO_DIGEST),
               ("office", TOKEN[1:], NO_DIGEST), ("office", "office", NO_DIGEST), ("Office", f"{TOKEN}0", NO_DIGEST),
               ("Office", "", NO_DIGEST), ("office", sha256(b""), OF_NO_TOKEN), ("Office", sha256(b""), OF_NO_TOKEN)]
# bytes that are zeros from there on
SPOILT_AT = 20, 100, 4096, 20480, 45056


@pytest.fixture
def leaves(folder, looked):
    """The folder of the test has these files, and no other."""
    return lambda *files: looked(sorted(os.listdir(folder)) == sorted(files), os.listdir(folder), files)


@pytest.fixture
def path(folder):
    """Where a database could be, and nothing is."""
    return f"{folder}/index.db"


def made_alone(program, path):
    """A new index, without the empty log that `init` leaves beside it."""
    os.remove(f"{make_index(program, path)}-wal")
    return path


@pytest.fixture
def index_file(program, path):
    """A new index with nothing beside it."""
    return made_alone(program, path)


# nothing is there, or no file

def test_no_file(refused, path, leaves):
    refused(path, NO_FILE)
    leaves()


def test_no_folder(refused, folder, leaves):
    refused(f"{folder}/none/index.db", NO_FILE)
    refused(f"{folder}/none/index.db", NO_FOLDER, INITS)
    leaves()


def test_a_link_that_leads_nowhere(refused, path, leaves):
    os.symlink("none.db", path)
    refused(path, NO_FILE)
    refused(path, NOT_MADE, INITS)
    leaves("index.db")


def test_a_folder(refused, folder):
    refused(folder, "a folder", PATHS)


def test_a_file_as_a_folder(refused, index_file):
    refused(f"{index_file}/index.db", NO_FOLDER, PATHS)


def test_a_pipe(refused, path, leaves):
    os.mkfifo(path)
    refused(path, "no regular file", PATHS)
    leaves("index.db")


def test_no_path(refused):
    refused(":memory:", NO_FILE)
    refused(":memory:", NOT_MADE, INITS)


def test_a_file_with_a_second_name(refused, index_file):
    os.link(index_file, f"{index_file}-other")
    refused(index_file, "a file with a second name", PATHS)


def test_a_folder_in_place_of_the_log(refused, index_file):
    os.mkdir(f"{index_file}-wal")
    refused(index_file, BESIDE, PATHS)


def test_a_journal(refused, index_file):
    with open(f"{index_file}-journal", "wb") as journal:
        journal.write(b"\xd9\xd5\x05\xf9\x20\xa1\x63\xd7")
    refused(index_file, BESIDE, PATHS)


# a file is there, and no database that can be read

def write(path, data):
    with open(path, "wb") as made:
        made.write(data)


def read(path):
    with open(path, "rb") as kept:
        return kept.read()


def test_a_text(refused, path):
    write(path, b"This is no database.\n" * 400)
    refused(path, NO_DATABASE, ALL)


@pytest.mark.parametrize("how", DAMAGED)
def test_a_database_that_is_cut_short(refused, index_file, how):
    change, cause = DAMAGED[how]
    write(index_file, change(read(index_file)))
    refused(index_file, cause, ALL)


@pytest.mark.parametrize("at", SPOILT_AT)
def test_a_database_with_other_bytes(refused, index_file, at):
    whole = read(index_file)
    write(index_file, whole[:at] + bytes(64) + whole[at + 64:])
    refused(index_file, "damaged", ALL)


@pytest.mark.parametrize("setting", ["PRAGMA auto_vacuum = 1; VACUUM", UTF_16], ids=["auto_vacuum", "UTF-16"])
def test_a_sound_database_that_is_written_as_no_index_is(refused, path, setting):
    """The page of formats says so."""
    with closing(sqlite3.connect(path)) as database:
        database.executescript(f"{setting}; CREATE TABLE notes (id INTEGER PRIMARY KEY, note TEXT)")
    refused(path, "damaged", ALL)


def by_shell(line):
    """Runs a line as an operator pastes it."""
    subprocess.run(["sh", "-e", "-c", line], check=True, stdout=subprocess.DEVNULL)


@pytest.fixture
def shell():
    """The shell of SQLite: only that can undo what it set."""
    want_command("sqlite3", "sqlite3")


def test_an_index_that_had_auto_vacuum_opens_again(shell, refused, end, index_file):
    by_shell(f"sqlite3 {index_file} 'PRAGMA auto_vacuum = 1; VACUUM'")
    refused(index_file, "damaged", ALL)
    by_shell(f"sqlite3 {index_file} 'PRAGMA auto_vacuum = 0; VACUUM'")
    assert end("check", "--db", index_file) == End(0, b"0\n")


def test_an_index_that_was_in_utf_16_opens_again(shell, refused, end, index_file, folder):
    path, new = f"{folder}/encoded.db", f"{folder}/decoded.db"
    by_shell(f"(echo \"{UTF_16};\"; sqlite3 {index_file} .dump) | sqlite3 {path}")
    refused(path, "damaged", ALL)
    by_shell(f"sqlite3 {path} .dump | sqlite3 {new}")
    copy_volume(index_file, new)
    assert end("check", "--db", new) == End(0, b"0\n")


# page sums: only a new file gets them, and its header then has 8 for what each page keeps at its end

def empty_file(path):
    open(path, "w").close()


def empty_database(path):
    by_sqlite(path, "PRAGMA user_version = 1")


def test_an_empty_file_is_no_index(end, path):
    empty_file(path)
    assert end("check", "--db", path) == End(1, b"", f"index: NotAnIndex\nindex: {path}: not an index\n".encode())


@pytest.mark.parametrize("make", [empty_database, lambda path: write(path, b"No database.")],
                         ids=["an-empty-database", "a-text"])
def test_a_file_that_is_not_new_gets_no_page_sums(refused, path, make):
    make(path)
    refused(path, NOT_NEW, [SUMS])


def test_an_index_gets_no_page_sums(refused, index_file):
    refused(index_file, NOT_NEW, [SUMS])


def test_an_empty_file_that_was_checked_gets_no_page_sums(refused, end, path):
    empty_file(path)
    end("check", "--db", path)
    refused(path, NOT_NEW, [SUMS])


@pytest.mark.parametrize("make, job, kept", [
    (lambda _: None, SUMS, 8), (empty_file, SUMS, 8), (empty_database, "init", 0)
], ids=["no-file", "an-empty-file", "an-empty-database"])
def test_a_new_file_gets_page_sums_if_it_is_asked_for(end, path, make, job, kept):
    make(path)
    assert end(*words_of(job, path)) == End(0, b"created\n")
    assert read(path)[20] == kept


def salts_of_log(path):
    """The salts in the head of a log: by them SQLite tells an old or a strange log."""
    return read(f"{path}-wal")[16:24]


def test_the_logs_of_two_new_files_with_page_sums_have_other_salts(program, end, folder, looked):
    """As `init` leaves them, and as a server writes them."""
    made, served = set(), set()
    for path in (f"{folder}/first.db", f"{folder}/second.db"):
        looked(end(*words_of(SUMS, path)) == End(0, b"created\n"), path)
        made.add(salts_of_log(path))
        with Index(program, path=path) as index:
            index.claim("frob")
            served.add(salts_of_log(path))
    looked(len(made) == len(served) == 2 and {len(it) for it in made | served} == {8}, made, served)


# first users, schemas, rights

@pytest.mark.parametrize("user, digest, cause", FIRST_USERS)
def test_a_user_who_cannot_be_the_first_is_refused_before_a_file_is_made(end, path, leaves, user, digest, cause):
    ended = end("init", "--db", path, "--user", user, "--token-sha256", digest)
    assert ended == End(1, b"", f"index: BadFirstUser\nindex: {path}: {cause}\n".encode())
    leaves()


@pytest.mark.parametrize("kind", MORE)
def test_an_object_more_in_the_schema(refused, index_file, kind):
    name, statement = MORE[kind]
    refused(by_sqlite(index_file, statement), OBJECT + name)


@pytest.mark.parametrize("statement, cause", [
    (MORE["an index"][1], OBJECT + "frob"),
    # rows that refer to a table can't be tested while a trigger is on it
    (MORE["a trigger"][1].replace("bans", "yanks"), NO_DATABASE), ("CREATE TABLE bans (file TEXT)", OTHER_TABLES)
], ids=["an-index-more", "a-trigger-on-a-table-that-rows-refer-to", "bans-of-another-shape"])
def test_version_1_with_another_schema(refused, path, statement, cause):
    refused(by_sqlite(make_old_version(path), statement), cause)


def test_a_column_more(refused, index_file):
    refused(by_sqlite(index_file, "ALTER TABLE names ADD COLUMN note TEXT"), OTHER_TABLES)


def test_init_finds_a_database_of_another_program(refused, path):
    by_sqlite(path, "CREATE TABLE notes (id INTEGER PRIMARY KEY, note TEXT)")
    refused(path, f"{OBJECT}notes", ["init"])


@pytest.fixture
def as_nobody(program, refused, folder):
    """`refused` of a copy of the program by a user who has no rights but those of all. Root has every right."""
    by = NOBODY if os.geteuid() == 0 else ()
    if by:
        want_command(by[0], "util-linux")
    copy, under = shutil.copy(program, f"{folder}/program"), folder
    while by and under != "/":
        if os.stat(under).st_mode & 0o055 != 0o055:
            os.chmod(under, os.stat(under).st_mode | 0o055)
        under = os.path.dirname(under)
    os.mkdir(f"{folder}/rights")
    path = made_alone(program, f"{folder}/rights/index.db")

    def each(cause, jobs=PATHS, path=path):
        refused(path, cause, jobs, by=by, program=copy)

    each.path, each.by = path, by
    return each


def left_in(folder):
    """What is in a folder, but for a volume."""
    return [it for it in os.listdir(folder) if f"index.db{VOLUME}" not in it]


def test_no_right_to_the_file(as_nobody, looked):
    os.chmod(as_nobody.path, 0o000)
    reads = subprocess.run([*as_nobody.by, "cat", as_nobody.path], stdout=subprocess.DEVNULL, stderr=subprocess.DEVNULL,
                           timeout=60)
    looked(reads.returncode != 0, "a file of no rights can be read")
    as_nobody(NO_RIGHT)
    os.chmod(as_nobody.path, 0o444)
    as_nobody(NO_RIGHT)
    left = left_in(os.path.dirname(as_nobody.path))
    looked(left == ["index.db"], left)


def test_no_right_to_make_a_log_or_a_file(as_nobody, looked):
    os.chmod(as_nobody.path, 0o666)
    under = os.path.dirname(as_nobody.path)
    os.chmod(under, 0o555)
    as_nobody(BESIDE)
    as_nobody(NOT_MADE, INITS, path=f"{under}/none.db")
    left = left_in(under)
    looked(left == ["index.db"], left)
    os.chmod(under, 0o755)


@pytest.mark.parametrize("is_lasting", [False, True], ids=["once", "from-then-on"])
@pytest.mark.parametrize("at", range(1, 4))
def test_a_system_without_memory_to_open_a_file_is_told_as_want_of_memory(end, failing, index_file, at, is_lasting):
    fault = Fault("open", at, "ENOMEM", is_lasting)
    ended = end(*words_of("check", index_file), setting=failing.setting(index_file, fault))
    assert failing.counted()["failed"] and ended == End(1, b"", b"index: OutOfMemory\n"), ended


@pytest.mark.parametrize("path", ["/no-right.db", "//no-right.db"])
def test_no_right_to_make_a_file_in_the_root_folder(as_nobody, path):
    """What stands before its slash is nothing, and that folder is there."""
    as_nobody(NOT_MADE, INITS, path=path)


def test_no_right_to_the_folder(as_nobody):
    if not as_nobody.by:
        pytest.skip("a user other than root has the right to change the folder's rights alone")
    under = os.path.dirname(as_nobody.path)
    os.chmod(under, 0o000)
    as_nobody(NO_RIGHT)
    os.chmod(under, 0o755)


# databases in use, disks and rows that fail

def test_a_database_in_use(program, refused, index_file):
    with Index(program, path=index_file):
        refused(index_file, "in use by another program", PATHS)


NEW_FAULTS = [("pwrite", 1, "ENOSPC", "init", FULL), ("fdatasync", 1, "ENOSPC", "init", FULL),
              ("fdatasync", 1, "EIO", "init", FAILED_DISK), ("pwrite", 1, "ENOSPC", SUMS, FULL),
              ("fdatasync", 1, "EIO", SUMS, FAILED_DISK)]
# of a database of version 1: its opening, the steps of the migration, and the close
OLD_FAULTS = [fault for at in range(1, 14) for fault in (("pwrite", at, "ENOSPC", "check", FULL),
                                                         ("fdatasync", at, "EIO", "check", FAILED_DISK))]


def fails(end, failing, folder, path, fault):
    """A call of the system that fails from then on is told by its cause."""
    kind, at, how, job, cause = fault
    setting = failing.setting(folder, Fault(kind, at, how, True))
    assert end(*words_of(job, path), setting=setting) == End(1, b"", f"index: Store\nindex: {path}: {cause}\n".encode())


@pytest.mark.parametrize("fault", [("pread", 1, "EIO", "check", FAILED_DISK), ("fsync", 1, "EIO", "check", BESIDE)],
                         ids=lambda it: " ".join(map(str, it[:4])))
def test_a_call_that_fails_on_an_index(end, failing, folder, index_file, fault):
    fails(end, failing, folder, index_file, fault)


@pytest.mark.parametrize("fault", NEW_FAULTS, ids=lambda it: " ".join(map(str, it[:4])))
def test_a_call_that_fails_on_a_new_file(end, failing, folder, path, fault):
    fails(end, failing, folder, path, fault)


@pytest.mark.parametrize("fault", OLD_FAULTS, ids=lambda it: " ".join(map(str, it[:4])))
def test_a_call_that_fails_on_a_database_of_version_1(end, failing, folder, path, fault):
    fails(end, failing, folder, make_old_version(path), fault)


def test_an_invalid_row_has_no_cause_that_is_known(refused, index_file):
    by_sqlite(index_file, "INSERT INTO names VALUES ('frob', 7, 'frob', 0, 0, 0, NULL)")
    refused(index_file, None, ["report", "check"])
