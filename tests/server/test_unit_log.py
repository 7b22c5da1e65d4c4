"""index-log on logs by a writer of the tests, without the program."""
import os
import struct

import pytest
from support.library import ends as library_ends
from support.programs import program_of
from support.sqlite_logs import FRONT, HEAD, SALT, flipped, log_of, place
from support.unit import calls, ends, raises

LOG = program_of("index-log")
Refused = library_ends.Refused
SOUND = "{} commits, and nothing that was acknowledged is missing"


def seen(log):
    look = LOG.look_of(log)
    return look.is_damaged, look.gate, look.text


@pytest.mark.parametrize("commits", [[1], [1, 1], [3, 1, 2]])
@pytest.mark.parametrize("big", [True, False])
@pytest.mark.parametrize("size", [512, 4096, 65536])
def test_a_sound_log_is_told_with_its_commits(commits, big, size):
    assert seen(log_of(commits, size, big)) == (False, 0, SOUND.format(len(commits)))


@pytest.mark.parametrize("length", [0, HEAD, HEAD + FRONT - 1])
def test_a_log_without_a_frame_is_empty(length):
    assert seen(log_of([1])[:length]) == (False, 0, "no commit: the log is empty")


def test_a_log_with_a_frame_is_looked_at():
    assert seen(log_of([1])[:HEAD + FRONT])[0]


@pytest.mark.parametrize("commits, page, frame, before, dropped", [
    ([1, 1, 1], 1, 1, 1, 2), ([1, 1, 1], 0, 0, 0, 3), ([1, 1, 1], 2, 2, 2, 1), ([2, 3, 1], 3, 2, 1, 2),
    ([2, 3, 1], 1, 0, 0, 3), ([1, 4], 4, 1, 1, 1)])
def test_a_flipped_byte_of_a_page_is_told_with_what_would_be_dropped(commits, page, frame, before, dropped):
    log = flipped(log_of(commits), place(page) + FRONT + 100)
    assert seen(log) == (True, place(frame) + 8, f"damaged after {before} sound commits; about {dropped} acknowledged "
                                                 "ones would be dropped")


@pytest.mark.parametrize("at", [0, 3, 16, 23])
def test_a_flipped_byte_of_a_frames_head_is_told(at):
    assert seen(flipped(log_of([1, 1, 1]), place(1) + at)) == (
        True, place(1) + 8, "damaged after 1 sound commits; about 2 acknowledged ones would be dropped")


@pytest.mark.parametrize("at", range(9, 16))
def test_a_flipped_byte_of_a_salt_is_told(at):
    assert seen(flipped(log_of([1, 1, 1]), place(1) + at))[:2] == (True, place(1) + 8)


def test_a_flipped_commit_mark_is_told():
    """Without its mark a commit goes over into the next one, so the sums are wrong from it on."""
    log = bytearray(log_of([1, 1, 1]))
    log[place(1) + 4:place(1) + 8] = bytes(4)
    assert seen(bytes(log)) == (True, place(1) + 8,
                                "damaged after 1 sound commits; about 1 acknowledged ones would be dropped")


def test_a_commit_whose_gate_is_shut_was_never_acknowledged():
    assert seen(flipped(log_of([1, 1, 1]), place(2) + 8)) == (False, 0, SOUND.format(2))
    assert seen(flipped(log_of([2, 3]), place(2) + 8)) == (False, 0, SOUND.format(1))


def test_a_frame_of_an_earlier_log_is_not_one_of_this():
    earlier = bytearray(log_of([1, 1, 1]))
    for at in range(8, 16):
        earlier[place(2) + at] ^= 0xff
    assert seen(bytes(earlier)) == (False, 0, SOUND.format(2))


def test_what_is_dropped_ends_where_an_earlier_log_begins():
    log = bytearray(flipped(log_of([1] * 6), place(1) + FRONT))
    for frame in (4, 5):
        for at in range(8, 16):
            log[place(frame) + at] ^= 0xff
    assert seen(bytes(log))[2] == "damaged after 1 sound commits; about 3 acknowledged ones would be dropped"


def test_what_is_dropped_ends_at_a_shut_gate():
    log = flipped(flipped(log_of([1] * 6), place(1) + FRONT), place(4) + 8)
    assert seen(log)[2] == "damaged after 1 sound commits; about 3 acknowledged ones would be dropped"


def test_a_gate_may_be_flipped_within_what_is_dropped_in_a_commit():
    """A later frame of a commit has no gate: the first byte of its salt decides nothing."""
    log = flipped(flipped(log_of([1, 3, 1]), place(1) + FRONT), place(2) + 8)
    assert seen(log)[2] == "damaged after 1 sound commits; about 2 acknowledged ones would be dropped"


@pytest.mark.parametrize("cut, told", [
    (place(2) + 8, None), (place(2) + 9, "cut off after 2 sound commits; about 1 acknowledged ones"),
    (place(3) - 1, "cut off after 2 sound commits; about 1 acknowledged ones"), (place(3), None)])
def test_a_log_that_is_cut_off_within_a_frame_is_told_by_its_gate(cut, told):
    damaged, _, text = seen(log_of([1, 1, 1])[:cut])
    assert damaged is (told is not None) and text.startswith(told or SOUND.format(2 if cut < place(3) else 3))


def test_a_commit_that_is_cut_off_counts_as_one():
    told = "damaged after 1 sound commits; about 1 acknowledged ones would be dropped"
    assert seen(log_of([1, 3])[:place(3)]) == (True, place(1) + 8, told)


def test_a_commit_that_is_cut_off_counts_behind_others_too():
    log = flipped(log_of([1, 1, 3])[:place(4)], place(0) + FRONT)
    assert seen(log)[2] == "damaged after 0 sound commits; about 3 acknowledged ones would be dropped"


def test_a_frame_of_page_0_is_none():
    log = bytearray(log_of([1, 1]))
    log[place(1):place(1) + 4] = bytes(4)
    assert seen(bytes(log))[0]


@pytest.mark.parametrize("magic", [b"\x37\x7f\x06\x84", b"\x37\x7f\x06\x81", b"\x37\x7f\x07\x82", b"\x37\x00\x06\x83"])
def test_a_log_of_another_kind_has_no_sound_header(magic):
    log = magic + log_of([1, 1])[4:]
    assert seen(log) == (True, 0, "the header is damaged; all of about 2 acknowledged commits would be dropped")


@pytest.mark.parametrize("magic", [0x377f0684, 0x377f0782, 0x367f0682])
@pytest.mark.parametrize("big", [True, False])
def test_a_header_of_another_kind_is_not_sound_though_its_sum_is_right(magic, big):
    assert not LOG.is_signed(log_of([], big=big, magic=magic)[:HEAD])


@pytest.mark.parametrize("at", [4, 8, 15, 16, 24, 31])
def test_a_damaged_header_is_told(at):
    assert seen(flipped(log_of([1, 1], 4096), at))[:2] == (True, 0)


def test_a_header_whose_first_byte_is_not_that_of_a_log_was_being_written():
    assert seen(b"\0" + log_of([1])[1:]) == (False, 0, "no commit: the log was being emptied")


def test_a_damaged_header_without_a_frame_behind_it_was_being_written():
    log = flipped(log_of([1]), 4)
    for salt in (b"", bytes(8)):
        assert not seen(log[:place(0) + 8] + salt + bytes(FRONT + 512))[0]


def test_a_header_has_a_known_page_size_or_the_usual_one():
    sizes = [LOG.Log(struct.pack(">4I", 0x377f0682, 0, size, 0) + bytes(99)).size
             for size in (512, 1024, 32768, 65536, 513, 256, 131072)]
    assert sizes == [512, 1024, 32768, 65536, 4096, 4096, 4096]


class Files:
    """A database and its log in a folder."""

    def __init__(self, folder, log):
        self.folder, self.db, self.log = folder, str(folder / "index.db"), log
        (folder / "index.db").write_bytes(b"database")
        if log is not None:
            (folder / "index.db-wal").write_bytes(log)

    def now(self):
        return (self.folder / "index.db-wal").read_bytes()

    def kept(self):
        return sorted(self.folder.glob("damaged-*"))


SOUND_LOG = log_of([1, 1, 1])
DAMAGED_LOG = flipped(SOUND_LOG, place(1) + FRONT)


def test_a_look_changes_nothing_and_tells(tmp_path, monkeypatch, capsys):
    sound = Files(tmp_path, SOUND_LOG)
    assert ends(LOG, monkeypatch, capsys, sound.db) == (0, f"index-log: {sound.db}-wal: {SOUND.format(3)}\n", "")
    damaged = Files(tmp_path, DAMAGED_LOG)
    status, out, err = ends(LOG, monkeypatch, capsys, damaged.db)
    assert (status, out) == (3, "") and err.startswith(f"index-log: {damaged.db}-wal: damaged after 1 ")
    assert damaged.now() == DAMAGED_LOG and not damaged.kept()


def test_to_accept_a_sound_log_changes_nothing(tmp_path, monkeypatch, capsys):
    files = Files(tmp_path, SOUND_LOG)
    said = ends(LOG, monkeypatch, capsys, "--accept", files.db)
    assert said == (0, f"index-log: {files.db}-wal: {SOUND.format(3)}\n", "")
    assert files.now() == SOUND_LOG and not files.kept()


def test_to_accept_a_loss_keeps_both_files_and_cuts_the_log_at_one_byte(tmp_path, monkeypatch, capsys):
    files = Files(tmp_path, DAMAGED_LOG)
    os.utime(files.db, (5, 5))
    status, out, _ = ends(LOG, monkeypatch, capsys, "--accept", files.db)
    folder, = files.kept()
    assert status == 0 and f"It is cut there, and both files are kept in {folder} as they were" in out
    gate = place(1) + 8
    assert files.now() == DAMAGED_LOG[:gate] + b"\0" + DAMAGED_LOG[gate + 1:]
    assert (folder / "index.db").read_bytes() == b"database" and (folder / "index.db-wal").read_bytes() == DAMAGED_LOG
    assert folder.stat().st_mode & 0o777 == 0o700 and (folder / "index.db").stat().st_mtime == 5
    assert seen(files.now()) == (False, 0, SOUND.format(1))


def test_a_cut_is_on_the_disk_and_under_a_lock_for_one_alone(tmp_path, monkeypatch):
    files = Files(tmp_path, DAMAGED_LOG)
    order = []
    real = LOG.os.fsync
    monkeypatch.setattr(LOG, "lock", lambda database: order.append(("lock", database.name, files.now() == DAMAGED_LOG)))
    monkeypatch.setattr(LOG.os, "fsync", lambda it: order.append(("sync", files.now()[place(1) + 8])) or real(it))
    LOG.cut(files.db, LOG.look_of(DAMAGED_LOG))
    assert order == [("lock", files.db, True), ("sync", 0)]


def test_a_loss_is_not_accepted_of_a_database_that_is_open(tmp_path, monkeypatch, capsys):
    files = Files(tmp_path, DAMAGED_LOG)

    def held(database):
        raise Refused(f"{database.name}: held")

    monkeypatch.setattr(LOG, "lock", held)
    assert ends(LOG, monkeypatch, capsys, "--accept", files.db)[::2] == (1, f"index-log: {files.db}: held\n")
    assert files.now() == DAMAGED_LOG


def test_both_files_are_kept_once_for_each_log_and_on_the_disk(tmp_path, monkeypatch):
    files = Files(tmp_path, DAMAGED_LOG)
    left = tmp_path / "left"
    synced = calls(monkeypatch, LOG, "sync")
    folder = LOG.kept(files.db, DAMAGED_LOG)
    left.mkdir()
    copied = calls(monkeypatch, LOG, "copy")
    assert LOG.kept(files.db, DAMAGED_LOG) == folder and not copied and synced == [(str(tmp_path),)]
    assert LOG.kept(files.db, SOUND_LOG) != folder and len(files.kept()) == 2


def test_what_a_kept_copy_that_failed_left_is_taken_away(tmp_path, monkeypatch):
    files = Files(tmp_path, DAMAGED_LOG)

    def fails(*_):
        raise Refused("no room")

    with monkeypatch.context() as patch:
        patch.setattr(LOG, "copy", fails)
        with pytest.raises(Refused, match="no room"):
            LOG.kept(files.db, DAMAGED_LOG)
        assert files.kept() == []
    part = tmp_path / f"{os.path.basename(LOG.kept(files.db, SOUND_LOG))}.part"
    assert not part.exists()
    other = LOG.hashlib.sha256(DAMAGED_LOG).hexdigest()[:12]
    (tmp_path / f"damaged-{other}.part").mkdir()
    (tmp_path / f"damaged-{other}.part" / "x").touch()
    assert sorted(os.listdir(LOG.kept(files.db, DAMAGED_LOG))) == ["index.db", "index.db-wal"]


def test_room_is_wanted_for_both_files(tmp_path, monkeypatch):
    files, asked = Files(tmp_path, DAMAGED_LOG), []
    monkeypatch.setattr(LOG, "want_room", lambda *words: asked.append(words))
    LOG.kept(files.db, DAMAGED_LOG)
    assert asked == [(str(tmp_path), len(b"database") + len(DAMAGED_LOG))]


class Became(Exception):
    """The command that index-log became."""


def becomes(monkeypatch):
    def become(name, words):
        raise Became(name, words)

    monkeypatch.setattr(LOG.os, "execvp", become)


@pytest.mark.parametrize("log", [SOUND_LOG, b"", None])
def test_a_command_runs_after_a_look_at_a_sound_log(tmp_path, monkeypatch, capsys, log):
    files = Files(tmp_path, log)
    becomes(monkeypatch)
    with pytest.raises(Became) as became:
        ends(LOG, monkeypatch, capsys, files.db, "--", "true", "--accept", "x")
    assert became.value.args == ("true", ["true", "--accept", "x"]) and capsys.readouterr().out == ""


def test_a_command_runs_if_no_file_is_there_since_it_says_what_to_do(tmp_path, monkeypatch, capsys):
    """A folder that can't be read gives the same."""
    becomes(monkeypatch)
    monkeypatch.setattr(LOG, "content", raises(PermissionError(13, "Permission denied", f"{tmp_path}/index.db-wal")))
    files = Files(tmp_path, SOUND_LOG)
    with pytest.raises(Became):
        ends(LOG, monkeypatch, capsys, files.db, "--", "true")
    assert capsys.readouterr().err == f"index-log: {files.db}-wal: Permission denied\n"
    assert ends(LOG, monkeypatch, capsys, files.db)[0] == 1


def test_no_command_runs_on_a_damaged_log(tmp_path, monkeypatch, capsys):
    files = Files(tmp_path, DAMAGED_LOG)
    becomes(monkeypatch)
    status, out, err = ends(LOG, monkeypatch, capsys, files.db, "--", "true")
    folder, = files.kept()
    assert (status, out) == (3, "") and err.splitlines()[1:] == [
        f"index-log: both files are kept in {folder}",
        f"index-log: to start without those commits: index-log --accept {files.db}"]
    assert "The index is not started" in err and files.now() == DAMAGED_LOG


def test_no_room_for_a_copy_is_told_beside_the_damage(tmp_path, monkeypatch, capsys):
    files = Files(tmp_path, DAMAGED_LOG)
    becomes(monkeypatch)
    for end in (Refused("no room"), OSError("no room")):
        monkeypatch.setattr(LOG, "kept", raises(end))
        status, _, err = ends(LOG, monkeypatch, capsys, files.db, "--", "true")
        assert status == 3 and "index-log: no copy is kept: no room\n" in err


def test_a_database_that_is_not_there_is_told(tmp_path, monkeypatch, capsys):
    for words in ((), ("--accept",)):
        status, _, err = ends(LOG, monkeypatch, capsys, *words, tmp_path / "none.db")
        assert (status, err) == (1, f"index-log: {tmp_path}/none.db: No such file or directory\n")


def test_another_fault_is_told_and_no_command_runs(tmp_path, monkeypatch, capsys):
    files = Files(tmp_path, SOUND_LOG)
    becomes(monkeypatch)
    monkeypatch.setattr(LOG, "content", raises(OSError("a bad block")))
    assert ends(LOG, monkeypatch, capsys, files.db, "--", "true")[::2] == (1, "index-log: a bad block\n")


@pytest.mark.parametrize("words, status", [
    ([], 2), (["-x"], 2), (["a", "b"], 2), (["--accept", "a", "--", "true"], 2), (["--accept"], 2), (["--help"], 0),
    (["-h"], 0)])
def test_other_words_print_the_use(monkeypatch, capsys, words, status):
    assert ends(LOG, monkeypatch, capsys, *words) == (status, LOG.__doc__ + "\n", "")


def test_a_link_to_a_database_is_followed(tmp_path, monkeypatch, capsys):
    os.mkdir(tmp_path / "real")
    files = Files(tmp_path / "real", DAMAGED_LOG)
    os.symlink(files.db, tmp_path / "link.db")
    assert ends(LOG, monkeypatch, capsys, tmp_path / "link.db")[0] == 3


def test_the_salt_of_a_damaged_header_is_that_of_the_first_frame():
    log = LOG.Log(flipped(log_of([1]), 16))
    assert log.salt == SALT and not log.is_signed
