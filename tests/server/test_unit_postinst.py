"""The script that configures the package, where /var is a folder of the test's and nobody is given a file."""
from __future__ import annotations

import os
import stat
from pathlib import Path

import pytest
from support.places import SERVER
from support.running import run_command

# install without the owner and the group
INSTALL = """#!/bin/bash
words=()
while [ $# != 0 ]; do case $1 in -[og]) shift 2;; *) words+=("$1"); shift;; esac; done
exec /usr/bin/install "${words[@]}"
"""


@pytest.fixture
def log(tmp_path: Path) -> Path:
    for name, text in (("install", INSTALL), ("py3compile", "#!/bin/sh\n")):
        (tmp_path / name).write_text(text)
        (tmp_path / name).chmod(0o755)
    for folder in ("lib", "backups", "cache", "log/nginx"):
        (tmp_path / "var" / folder).mkdir(parents=True)
    return tmp_path / "var/log/package-index/changes.log"


@pytest.fixture
def old(log: Path, tmp_path: Path) -> Path:
    """Where older versions had it."""
    return tmp_path / "var/log/nginx/index-changes.log"


def configure(folder: Path) -> None:
    """Runs it, as at an upgrade of a machine that systemd did not start. It has to succeed."""
    script = Path(f"{SERVER}/debian/package-index.postinst").read_text()
    for path in ("/var/", "/run/"):
        script = script.replace(f" {path}", f" {folder}{path}").replace(f"={path}", f"={folder}{path}")
    ended = run_command(["sh", "-c", script, "postinst", "configure", "1"], PATH=f"{folder}:{os.environ['PATH']}")
    assert (ended.returncode, ended.stdout) == (0, ""), ended


def mode(path: Path) -> str:
    return f"{stat.S_IMODE(path.stat().st_mode):o}"


def test_the_log_of_changes_is_kept_from_others(log, tmp_path):
    configure(tmp_path)
    assert (mode(log), mode(log.parent)) == ("640", "751")
    log.chmod(0o644)
    configure(tmp_path)
    assert mode(log) == "640"


def test_a_half_made_folder_is_made_again(log, tmp_path):
    """A kill may leave it as anybody's."""
    log.parent.with_name("package-index.new").mkdir(mode=0o700)
    configure(tmp_path)
    assert mode(log.parent) == "751" and sorted(os.listdir(log.parent.parent)) == ["nginx", "package-index"]


def test_the_folder_of_the_log_may_be_on_a_disk_that_is_off(log, tmp_path):
    log.parent.symlink_to(tmp_path / "disk")
    configure(tmp_path)
    assert os.readlink(log.parent) == f"{tmp_path}/disk" and not log.exists()


def test_a_log_of_changes_on_another_disk_is_kept_from_others(log, tmp_path):
    log.parent.mkdir()
    (tmp_path / "disk").touch(mode=0o644)
    log.symlink_to(tmp_path / "disk")
    configure(tmp_path)
    assert log.is_symlink() and mode(tmp_path / "disk") == "640"


def test_a_log_of_changes_on_a_disk_that_is_off_stays_there(log, tmp_path):
    log.parent.mkdir()
    log.symlink_to(tmp_path / "disk")
    configure(tmp_path)
    assert os.readlink(log) == f"{tmp_path}/disk" and not (tmp_path / "disk").exists()


def test_what_is_no_file_stays_for_everybody(log, tmp_path):
    """As /dev/null, which takes a log that nobody wants. A pipe stands for it."""
    log.parent.mkdir()
    os.mkfifo(tmp_path / "null")
    (tmp_path / "null").chmod(0o666)
    log.symlink_to(tmp_path / "null")
    configure(tmp_path)
    assert mode(tmp_path / "null") == "666"


def fill(old: Path) -> None:
    """A log as older versions had it, with what was rotated away."""
    for name, text in (("", "now"), (".1", "older"), (".2.gz", "oldest")):
        old.with_name(f"{old.name}{name}").write_text(text)


def moved(log: Path) -> dict[str, str]:
    return {it.name: it.read_text() for it in log.parent.iterdir()}


MOVED = {"changes.log": "now", "changes.log.1": "older", "changes.log.2.gz": "oldest"}


def test_an_upgrade_moves_the_log_of_changes_and_leaves_a_link(log, old, tmp_path):
    fill(old)
    nginx = old.open("a")
    configure(tmp_path)
    assert moved(log) == MOVED and os.listdir(old.parent) == [old.name]
    assert os.readlink(old) == str(log) and mode(log) == "640"
    # nginx has it open, and opens it again by the old name
    with nginx, old.open("a") as again:
        for file in (nginx, again):
            file.write(" and then")
            file.flush()
    assert log.read_text() == "now and then and then"
    configure(tmp_path)
    assert set(moved(log)) == set(MOVED) and old.is_symlink()


@pytest.mark.parametrize("steps", [1, 2, 3])
def test_an_upgrade_that_was_killed_goes_on_where_it_was(log, old, tmp_path, steps):
    fill(old)
    log.parent.mkdir()
    os.link(old, log)
    if steps > 1:
        old.with_name(f"{old.name}.new").symlink_to(log)
    if steps > 2:
        old.with_name(f"{old.name}.new").rename(old)
    configure(tmp_path)
    assert moved(log) == MOVED and old.is_symlink() and os.listdir(old.parent) == [old.name]


def test_a_link_of_a_person_in_the_old_place_stays(log, old, tmp_path):
    (tmp_path / "disk").write_text("theirs")
    old.symlink_to(tmp_path / "disk")
    configure(tmp_path)
    assert os.readlink(old) == f"{tmp_path}/disk" and mode(tmp_path / "disk")[-1] == "0"
    assert moved(log) == {"changes.log": ""}


def test_a_log_that_nginx_made_again_in_the_old_place_is_lost_by_nobody(log, old, tmp_path):
    configure(tmp_path)
    fill(old)
    old.chmod(0o644)
    configure(tmp_path)
    assert old.read_text() == "now" and not old.is_symlink() and mode(old) == "640"
    assert moved(log) == {"changes.log": ""}
