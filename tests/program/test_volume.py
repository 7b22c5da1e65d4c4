"""An index with a volume: what it serves, and each cause for which a volume is refused, with both files as they
were."""
import os
import shutil

import pytest
from support.needed import want_command
from support.serving import FIRST_USER, Index, accepted
from support.subcommands import WORKING, End, end_of, words_of

FIRST, SECOND = b"first" * 1000, b"second" * 3000
ABSENT = "no such file"
LINK, TOO_SHORT, OTHER = "a link", "too short for the places in the database", "not the volume of the database"
THERE = "there already, and only a new or empty file becomes a volume"
NO_VOLUME = "no index of version 3, which has a volume"
INITS = (), ("--page-sums",)


def name_of(number):
    return f"frob-{number}.0.tar.gz"


@pytest.fixture
def path(folder):
    """Where a database could be, and nothing is."""
    return f"{folder}/index.db"


def init(program, path, *more):
    """How an `init` of this database ends."""
    return end_of(program, "init", "--db", path, *FIRST_USER, *more)


def make_plain(program, path):
    """A new index without a volume."""
    assert init(program, path) == End(0, b"created\n")
    return path


def make_placed(program, path, *volume):
    """A new index with a volume: beside the database, or at the path given."""
    assert init(program, path, "--volume", *volume) == End(0, b"created\n")
    return path


def fill(program, path, *words):
    """Uploads two files."""
    with Index(program, path=path, more=words) as index:
        accepted(index.claim("frob"))
        for number, body in enumerate([FIRST, SECOND], 1):
            accepted(index.upload("frob", name_of(number), body))
    return path


@pytest.fixture
def placed(program, path):
    """An index of two files with a volume beside the database."""
    return fill(program, make_placed(program, path))


def read(path):
    with open(path, "rb") as kept:
        return kept.read()


def write(path, data):
    with open(path, "wb") as made:
        made.write(data)


def files_of(index):
    return [index.ask("GET", f"/files/frob/{name_of(number)}")[::2] for number in (1, 2)]


def told(name, path, cause):
    """What stands on standard error: the name of the end, and the cause with its subject."""
    return End(1, b"", f"index: {name}\nindex: {path}: {cause}\n".encode())


@pytest.fixture
def refuses(program, looked):
    """Every subcommand on this index is refused for this cause of its volume, and both files stay as they were."""
    def each(path, volume, cause, more=(), name="Store", subject=None):
        kept = {it: os.path.isfile(it) and read(it) for it in (path, volume)}
        for job in WORKING:
            ended = end_of(program, *words_of(job, path), *more)
            looked(ended == told(name, subject or volume, cause), job, ended)
        looked(kept == {it: os.path.isfile(it) and read(it) for it in kept}, "stay")

    return each


def test_the_bytes_of_files_lie_in_the_volume_alone(program, placed):
    assert read(f"{placed}-volume") == FIRST + SECOND
    assert FIRST not in read(placed) and SECOND[:100] not in read(placed)
    with Index(program, path=placed) as index:
        assert files_of(index) == [(200, FIRST), (200, SECOND)]


def test_pages_and_answers_are_those_of_an_index_without(program, folder, placed):
    plain = fill(program, make_plain(program, f"{folder}/plain.db"))
    pages = []
    for path in plain, placed:
        with Index(program, path=path) as index:
            pages.append([index.ask("GET", page)[::2] for page in ("/simple/", "/simple/frob/", "/names/frob")])
    assert pages[0] == pages[1]
    for job in "report", "check":
        assert end_of(program, *words_of(job, plain)) == end_of(program, *words_of(job, placed))


@pytest.mark.parametrize("sums", INITS)
def test_a_volume_elsewhere(program, folder, path, refuses, sums):
    elsewhere = f"{folder}/elsewhere"
    assert init(program, path, *sums, "--volume", elsewhere) == End(0, b"created\n")
    fill(program, path, "--volume", elsewhere)
    assert read(elsewhere) == FIRST + SECOND
    refuses(path, f"{path}-volume", ABSENT)
    with Index(program, path=path, more=("--volume", elsewhere)) as index:
        assert files_of(index) == [(200, FIRST), (200, SECOND)]


def test_lines_are_applied(program, path):
    make_placed(program, path)
    lines = b'{"at":1,"token":"office","do":"claim","name":"frob"}\n'
    ended = end_of(program, "apply", "--db", path, given=lines)
    assert ended == End(0, b'{"answer":"accepted"}\n')
    assert b"frob" in end_of(program, "report", "--db", path).output


def test_a_database_at_the_end_of_a_link_has_its_volume_beside_it(program, folder, placed):
    os.mkdir(f"{folder}/links")
    os.symlink(placed, f"{folder}/links/index.db")
    assert end_of(program, "check", "--db", f"{folder}/links/index.db") == End(0, b"0\n")


def test_killed_after_an_upload_it_has_the_file(program, path):
    make_placed(program, path)
    with Index(program, path=path) as index:
        accepted(index.claim("frob"))
        accepted(index.upload("frob", name_of(1), FIRST))
        index.kill()
        index.process.wait(timeout=60)
    with Index(program, path=path) as index:
        assert index.ask("GET", f"/files/frob/{name_of(1)}")[2] == FIRST
        accepted(index.upload("frob", name_of(2), SECOND))
        assert files_of(index) == [(200, FIRST), (200, SECOND)]


def test_bytes_behind_the_last_place_stay_and_are_not_served(program, placed):
    """A crash leaves such bytes."""
    with open(f"{placed}-volume", "ab") as volume:
        volume.write(b"torn")
    with Index(program, path=placed) as index:
        accepted(index.upload("frob", name_of(3), b"third"))
        assert index.ask("GET", f"/files/frob/{name_of(3)}")[2] == b"third"
    assert read(f"{placed}-volume") == FIRST + SECOND + b"tornthird"


def test_a_file_with_other_bytes_is_not_served(program, placed):
    """Only the last file is looked at by a start."""
    write(f"{placed}-volume", b"F" + FIRST[1:] + SECOND)
    with Index(program, path=placed) as index:
        assert index.ask("GET", f"/files/frob/{name_of(1)}")[:1] == (500,)
        assert index.ask("GET", f"/files/frob/{name_of(2)}")[::2] == (200, SECOND)


# a volume that is refused

def test_a_missing_volume(placed, refuses):
    os.rename(f"{placed}-volume", f"{placed}-moved")
    refuses(placed, f"{placed}-volume", ABSENT)
    assert not os.path.lexists(f"{placed}-volume")


def test_a_link_to_a_volume(placed, refuses):
    os.rename(f"{placed}-volume", f"{placed}-moved")
    os.symlink(f"{placed}-moved", f"{placed}-volume")
    refuses(placed, f"{placed}-volume", LINK)


def test_a_folder(placed, refuses):
    os.remove(f"{placed}-volume")
    os.mkdir(f"{placed}-volume")
    refuses(placed, f"{placed}-volume", "a folder")


def test_a_volume_with_a_second_name(placed, refuses):
    os.link(f"{placed}-volume", f"{placed}-second")
    refuses(placed, f"{placed}-volume", "a file with a second name")


def test_a_volume_that_another_index_has_open(program, folder, placed, refuses):
    shutil.copy(placed, f"{folder}/copy.db")
    with Index(program, path=placed):
        refuses(f"{folder}/copy.db", f"{placed}-volume", "in use by another program", ("--volume", f"{placed}-volume"))


def test_the_database_as_its_own_volume(placed, refuses):
    refuses(placed, placed, "in use by another program", ("--volume", placed))


@pytest.mark.parametrize("length", [0, 1, len(FIRST), len(FIRST + SECOND) - 1])
def test_a_volume_that_is_too_short(placed, refuses, length):
    os.truncate(f"{placed}-volume", length)
    refuses(placed, f"{placed}-volume", TOO_SHORT)


def test_the_volume_of_another_index(placed, refuses):
    write(f"{placed}-volume", SECOND + FIRST)
    refuses(placed, f"{placed}-volume", OTHER)


def test_a_path_under_a_file(placed, refuses):
    refuses(placed, f"{placed}/volume", "no such folder", ("--volume", f"{placed}/volume"))


def test_a_volume_that_may_not_be_read(program, placed, looked):
    words = [program, *words_of("check", placed)]
    if os.getuid():
        os.chmod(f"{placed}-volume", 0)
    else:
        want_command("setpriv", "util-linux")
        for file in placed, f"{placed}-wal", f"{placed}-volume-wal":
            os.chown(file, 65534, 65534)
        os.chown(os.path.dirname(placed), 65534, 65534)
        os.chmod(f"{placed}-volume", 0o600)
        words[:0] = "setpriv", "--reuid=65534", "--regid=65534", "--clear-groups"
    first, *words = words
    ended = end_of(first, *words)
    looked(ended == told("Store", f"{placed}-volume", "no right to read and write it"), ended)


def test_a_volume_beside_an_index_without(program, folder, placed, refuses):
    plain = make_plain(program, f"{folder}/plain.db")
    refuses(plain, f"{placed}-volume", NO_VOLUME, ("--volume", f"{placed}-volume"), "OtherVersion", plain)


def test_a_volume_without_a_database(program):
    ended = end_of(program, "apply", "--volume", "some")
    assert (ended.status, ended.error.split(b"\n")[0]) == (2, b"error: --volume is given without --db")


# `init`

@pytest.mark.parametrize("sums", INITS)
def test_init_beside_a_file_that_is_there(program, path, sums):
    write(f"{path}-volume", b"kept")
    assert init(program, path, *sums, "--volume") == told("Store", f"{path}-volume", THERE)
    assert read(f"{path}-volume") == b"kept" and not os.path.exists(path)


@pytest.mark.parametrize("sums", INITS)
def test_init_takes_an_empty_volume(program, path, sums):
    """An `init` that was killed leaves one, and an empty database."""
    write(f"{path}-volume", b"")
    write(path, b"")
    assert init(program, path, *sums, "--volume") == End(0, b"created\n")
    with Index(program, path=fill(program, path)) as index:
        assert files_of(index) == [(200, FIRST), (200, SECOND)]


def test_init_beside_a_folder(program, path):
    os.mkdir(f"{path}-volume")
    assert init(program, path, "--volume") == told("Store", f"{path}-volume", THERE)
    assert not os.path.exists(path)


def test_init_beside_a_link_to_nothing(program, path):
    os.symlink("nothing", f"{path}-volume")
    assert init(program, path, "--volume") == told("Store", f"{path}-volume", THERE)
    assert not os.path.exists(path)


def test_init_on_an_index_that_is_there(program, folder, placed):
    was = read(placed), read(f"{placed}-volume")
    new = f"{folder}/new"
    ended = init(program, placed, "--volume", new)
    assert ended == told("NotEmpty", placed, "a table of an index is there already")
    assert (read(placed), read(f"{placed}-volume")) == was and not os.path.exists(new)


def test_init_with_a_first_user_who_is_not_valid(program, folder, path):
    ended = end_of(program, "init", "--db", path, "--user", "Office", *FIRST_USER[2:], "--volume")
    assert ended == told("BadFirstUser", path, "--user is not 1 to 32 of a-z and 0-9")
    assert os.listdir(folder) == []


def test_init_in_a_folder_that_is_missing(program, folder, path):
    new = f"{folder}/none/volume"
    ended = init(program, path, "--volume", new)
    assert ended == told("Store", new, "no such folder")
