"""index-punch beside an index that serves: what was banned leaves the disk, and nothing else does."""
import errno
import os
import shutil
import signal
import subprocess
import sys

import pytest
from support.library import volume
from support.needed import want_command
from support.places import BIN
from support.planted import catches
from support.running import built, run_command
from support.server.expected import assert_ends
from support.server.stand_ins import called, stand_ins
from support.server.pasted import block
from support.server.stops import SIGNALS, ended_before, is_reached
from support.server.waits import wait_for
from support.serving import OFFICE, Index, accepted

# each runs several programs
pytestmark = pytest.mark.slow
FILE = "frob-1.{}.tar.gz"
# of the library fail_calls
PWRITE = "2"


@pytest.fixture(autouse=True)
def with_volumes(program):
    """Skips where the program serves no volume yet."""
    told = subprocess.run([program, "help", "init"], stdout=subprocess.PIPE, text=True, check=False).stdout
    if "--volume" not in told:
        pytest.skip("the program serves no volume")


@pytest.fixture
def places(folder):
    for name in ("var", "backups", "notes"):
        os.mkdir(f"{folder}/{name}")
    return folder


@pytest.fixture
def pair(program, places):
    path = f"{places}/var/index.db"
    assert_ends(run_command([program, "init", "--db", path, *OFFICE, "--volume"]), 0, "created")
    return path


def uploaded(index, chance, *numbers):
    """Uploads files with these numbers. Returns them."""
    files = {FILE.format(at): chance.randbytes(10_000 + 100 * at) for at in numbers}
    for file, body in files.items():
        accepted(index.upload("frob", file, body))
    return files


def ban(index, file):
    accepted(index.request(do="ban_file", file=file))


def delete(index, file):
    accepted(index.ask("DELETE", f"/files/frob/{file}", X_Index_Token="office"))


def are_served(index, files):
    return all(index.ask("GET", f"/files/frob/{it}")[::2] == (200, body) for it, body in files.items())


def words_of(pair, places, *more):
    return [sys.executable, "-B", f"{BIN}/index-punch", pair, f"{places}/backups", "--notes", f"{places}/notes", *more]


def punch(pair, places, *more):
    return run_command(words_of(pair, places, *more))


def bytes_in(path):
    with open(path, "rb") as kept:
        return kept.read()


def has(path, body):
    """Whether a file has a whole block of these bytes, wherever that begins."""
    whole = bytes_in(path)
    return any(body[at:at + 512] in whole for at in range(0, len(body) - 511, 512))


@pytest.fixture
def disk(folder):
    """An ext4 in a file, mounted, and that file."""
    want_command("mkfs.ext4", "e2fsprogs")
    if os.geteuid() != 0:
        pytest.skip("only root may mount")
    image, at = f"{folder}/image", f"{folder}/disk"
    os.mkdir(at)
    with open(image, "wb") as made:
        made.truncate(64 << 20)
    assert_ends(run_command(["mkfs.ext4", "-q", "-F", image]), 0)
    if run_command(["mount", "-o", "loop", image, at]).returncode:
        pytest.skip("this machine lets nobody mount a disk")
    yield at, image
    run_command(["umount", "--lazy", at])


@catches("server/lib/package_index/holes.py", "        overwrite(file, free)\n", "        pass\n")
def test_what_was_banned_leaves_the_device_while_the_index_serves(program, disk, places, chance, looked):
    at, image = disk
    path = f"{at}/index.db"
    assert_ends(run_command([program, "init", "--db", path, *OFFICE, "--volume"]), 0, "created")
    with Index(program, path=path) as index:
        accepted(index.claim("frob"))
        files = uploaded(index, chance, *range(6))
        os.sync()
        banned = [files.pop(FILE.format(it)) for it in (1, 3)]
        looked(all(has(image, it) for it in banned), "the device has them")
        for number in (1, 3):
            ban(index, FILE.format(number))
        before = os.stat(f"{path}-volume").st_blocks
        assert_ends(punch(path, places), 0, "bytes given back\n")
        looked(are_served(index, files) and os.stat(f"{path}-volume").st_blocks < before)
        files.update(uploaded(index, chance, 7))
    os.sync()
    assert_ends(run_command(["umount", at]), 0)
    looked(not any(has(image, it) for it in banned), "the device has them no more")
    looked(all(has(image, it) for it in files.values()), "and has the others")
    assert_ends(run_command(["mount", "-o", "loop", image, at]), 0)
    with Index(program, path=path) as index:
        looked(are_served(index, files))


@catches("server/lib/package_index/punched.py", "length if is_stopped else end, used_in", "length, used_in")
def test_an_upload_that_stopped_between_its_sync_and_its_row_goes_after_the_next_one(program, pair, places, folder,
                                                                                     chance):
    with Index(program, path=pair) as index:
        accepted(index.claim("frob"))
        files = uploaded(index, chance, 0, 1, 2)
    lost, setting = chance.randbytes(30_000), {
        "LD_PRELOAD": built("fail_calls", folder), "FAIL_COUNTS": f"{folder}/counts", "FAIL_UNDER": f"{pair}-wal",
        "FAIL_KIND": PWRITE, "FAIL_HOW": str(errno.EIO), "FAIL_ON": "1"}
    at, status = 0, 200
    while status < 500:
        at += 1
        with open(f"{folder}/counts", "wb") as counts:
            counts.write(bytes(128))
        with Index(program, path=pair, setting={**setting, "FAIL_AT": str(at)}) as index:
            status = index.upload("frob", FILE.format(3), lost)[0]
        assert at < 30 and (status >= 500 or not files.update({FILE.format(3): lost}))
        if status < 500:
            with Index(program, path=pair) as index:
                delete(index, FILE.format(3))
                del files[FILE.format(3)]
            pytest.fail("its row was written")
    assert has(f"{pair}-volume", lost)
    with Index(program, path=pair) as index:
        assert index.ask("GET", f"/files/frob/{FILE.format(3)}")[0] == 404
        assert_ends(punch(pair, places), 0, "0 bytes given back; 30000 bytes lie above the last file")
        assert has(f"{pair}-volume", lost)
        files.update(uploaded(index, chance, 4))
        assert are_served(index, files)
        assert_ends(punch(pair, places), 0, "bytes given back\n")
        assert not has(f"{pair}-volume", lost) and are_served(index, files)
    with Index(program, path=pair) as index:
        assert are_served(index, files)


@catches("server/lib/package_index/punched.py", "length if is_stopped else end, used_in", "end, used_in")
def test_the_last_file_of_all_goes_from_an_index_that_is_stopped(program, pair, places, chance):
    with Index(program, path=pair) as index:
        accepted(index.claim("frob"))
        files = uploaded(index, chance, 0, 1)
        ban(index, FILE.format(1))
        banned = files.pop(FILE.format(1))
        assert_ends(punch(pair, places, "--stopped"), 1, "another program still has it open")
        assert_ends(punch(pair, places), 0, "0 bytes given back; 10100 bytes lie above the last file")
    assert has(f"{pair}-volume", banned)
    script = block("(\n    trap 'systemctl start index' EXIT\n    systemctl stop index\n    index-punch")
    os.makedirs(f"{places}/bin")
    script = script.replace("index-punch --stopped /var/lib/index/index.db /var/backups/index", " ".join(
        words_of(pair, places, "--stopped")))
    path = stand_ins(f"{places}/commands", systemctl="")
    assert_ends(run_command(["sh", "-c", script], PATH=path), 0, "4096 bytes given back\n")
    assert called(f"{places}/commands") == "systemctl stop index\nsystemctl start index\n"
    assert not has(f"{pair}-volume", banned)
    with Index(program, path=pair) as index:
        files.update(uploaded(index, chance, 2))
        assert are_served(index, files)


# stands for `cp`: it waits behind the first copy
SLOW = """/bin/cp "$@" || exit
[ -e "$REACHED" ] && exit
: > "$REACHED"
while [ ! -e "$GO" ]; do sleep 0.05; done
"""


@catches("server/bin/index-punch", "        stack.enter_context(alone(os.path.dirname(db), AT_WORK, PATIENCE))\n", "")
@pytest.mark.timeout(60)
def test_a_ban_during_a_backup_waits_for_it(program, pair, places, chance):
    setting = {"PATH": stand_ins(f"{places}/bin", cp=SLOW), "REACHED": f"{places}/reached", "GO": f"{places}/go",
               "INDEX": program}
    with Index(program, path=pair) as index:
        accepted(index.claim("frob"))
        files = uploaded(index, chance, 0, 1, 2)
        banned = files[FILE.format(1)]
        words = [sys.executable, "-B", f"{BIN}/index-backup", pair, f"{places}/backups"]
        with subprocess.Popen(words, env={**os.environ, **setting}, stdout=subprocess.DEVNULL) as backup:
            assert wait_for(lambda: os.path.exists(f"{places}/reached"))
            ban(index, FILE.format(1))
            del files[FILE.format(1)]
            with subprocess.Popen(words_of(pair, places), stdout=subprocess.PIPE, text=True) as after:
                with pytest.raises(subprocess.TimeoutExpired):
                    after.wait(2)
                assert has(f"{pair}-volume", banned)
                with open(f"{places}/go", "w"):
                    pass
                said = after.communicate(timeout=60)[0]
            assert backup.wait(60) == 0
        assert after.returncode == 0 and "bytes given back" in said and not has(f"{pair}-volume", banned)
        assert are_served(index, files)
    copy, = (it for it in os.listdir(f"{places}/backups") if it.endswith(".db"))
    assert_ends(run_command([f"{BIN}/index-verify", f"{places}/backups/{copy}"], INDEX=program), 0)


@catches("server/lib/package_index/punched.py", "        if databases:\n", "        if not databases:\n")
def test_the_backups_lose_it_with_the_last_kept_database_that_has_it(program, pair, places, chance):
    def backup(keep):
        assert_ends(run_command([f"{BIN}/index-backup", pair, f"{places}/backups", keep], INDEX=program), 0)
        wait_for(lambda: False, 1.1)

    with Index(program, path=pair) as index:
        accepted(index.claim("frob"))
        files = uploaded(index, chance, 0, 1, 2)
        backup("2")
        ban(index, FILE.format(1))
        banned = files.pop(FILE.format(1))
        backup("2")
        copy, = (f"{places}/backups/{it}" for it in os.listdir(f"{places}/backups") if it.endswith(".volume"))
        assert_ends(punch(pair, places), 0)
        assert has(copy, banned) and not has(f"{pair}-volume", banned)
        backup("2")
        assert_ends(punch(pair, places), 0, "4096 bytes given back\n")
        assert not has(copy, banned) and all(has(copy, it) for it in files.values())
        for it in os.listdir(f"{places}/backups"):
            if it.endswith(".db"):
                assert_ends(run_command([f"{BIN}/index-verify", f"{places}/backups/{it}"], INDEX=program), 0)


@catches("docs/operators/OPERATING.md", ' || rm -- "$it" "$it-volume"\n', ' || rm -- "$it-volume"\n')
def test_a_file_is_taken_out_of_the_backups_by_the_page(program, pair, places, chance):
    script = block("file=frob-1.0.tar.gz\nsystemctl start index-backup")
    script = script.replace("/var/backups/index", f"{places}/backups")
    with Index(program, path=pair) as index:
        accepted(index.claim("frob"))
        uploaded(index, chance, 0, 1)
        assert_ends(run_command([f"{BIN}/index-backup", pair, f"{places}/backups"], INDEX=program), 0)
        ban(index, FILE.format(0))
        old, = (it for it in os.listdir(f"{places}/backups") if it.endswith(".db"))
        wait_for(lambda: False, 1.1)
        fails = stand_ins(f"{places}/fails", systemctl="exit 1")
        run_command(["sh", "-c", script], PATH=fails)
        assert old in os.listdir(f"{places}/backups")
        path = stand_ins(f"{places}/commands", systemctl=f'[ "$2" != index-backup ] || INDEX={program} '
                                                         f"{BIN}/index-backup {pair} {places}/backups")
        for _ in range(2):
            run_command(["sh", "-c", script], PATH=path)
            wait_for(lambda: False, 1.1)
        left = [it for it in os.listdir(f"{places}/backups") if it.endswith((".db", ".db-volume"))]
        assert len(left) == 4 and not {old, f"{old}-volume"} & {*left}
        assert called(f"{places}/commands") == "systemctl start index-backup\nsystemctl start index-punch\n" * 2


def whole(db):
    """Whether each file of a database has its bytes in its volume."""
    with volume.tables_of(db) as tables, volume.volume(volume.path_of_volume(db)) as file:
        return volume.first_wrong(file, volume.bodies_in(tables)) is None


@pytest.mark.timeout(1800)
@catches("server/lib/package_index/holes.py", "bytes(len(piece)), begin", "bytes(len(piece) + 9), begin")
@pytest.mark.parametrize("number", SIGNALS)
def test_stopped_at_each_step_nothing_is_lost_and_the_next_run_goes_on(program, pair, places, folder, chance, looked,
                                                                       number):
    with Index(program, path=pair) as index:
        accepted(index.claim("frob"))
        files = uploaded(index, chance, *range(5))
        assert_ends(run_command([f"{BIN}/index-backup", pair, f"{places}/backups"], INDEX=program), 0)
        ban(index, FILE.format(1))
        delete(index, FILE.format(3))
    old = next(it for it in os.listdir(f"{places}/backups") if it.endswith(".db"))
    os.rename(f"{places}/backups/{old}", f"{places}/backups/index-20200101T000000Z.db")
    os.rename(f"{places}/backups/{old}-volume", f"{places}/backups/index-20200101T000000Z.db-volume")
    assert_ends(run_command([f"{BIN}/index-backup", pair, f"{places}/backups", "1"], INDEX=program), 0)
    gone = [files[FILE.format(it)] for it in (1, 3)]
    step, has_more = 0, True
    while has_more:
        at = f"{folder}/step"
        for name in ("var", "backups", "notes"):
            shutil.copytree(f"{places}/{name}", f"{at}/{name}", symlinks=True)
        ended = ended_before(step, number, [f"{BIN}/index-punch", f"{at}/var/index.db", f"{at}/backups", "--notes",
                                            f"{at}/notes"])
        has_more = is_reached(ended)
        looked(ended.returncode == (-number if has_more else 0), step, number, ended.returncode, ended.stdout)
        kept = [f"{at}/var/index.db", *(f"{at}/backups/{it}" for it in os.listdir(f"{at}/backups")
                                        if it.endswith(".db"))]
        looked(len(kept) == 2 and all(map(whole, kept)), step, number)
        looked(number == signal.SIGKILL or not {"index.db", "index.db-wal"} & {*os.listdir(f"{at}/notes")}, step)
        assert_ends(punch(f"{at}/var/index.db", at), 0)
        copy, = (f"{at}/backups/{it}" for it in os.listdir(f"{at}/backups") if it.endswith(".volume"))
        looked(all(map(whole, kept)), step, number)
        looked(not any(has(path, it) for path in (f"{at}/var/index.db-volume", copy) for it in gone), step, number)
        shutil.rmtree(at)
        step += 1
    print(f"{step - 1} steps by {number.name}")
    assert step > 8
