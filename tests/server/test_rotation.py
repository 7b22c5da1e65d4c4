"""The log of changes is rotated by a file of its own, beside nginx's. Its folder is kept from nginx's workers, which
open the log there, and all that read the log find what was rotated away and compressed."""
from __future__ import annotations

import datetime
import itertools
import os
import re
import shutil
import stat
from collections.abc import Iterator
from pathlib import Path

import pytest
from support.indexctl.control import Control, assert_ends
from support.library import changes, followed, log_place
from support.needed import want_command, want_file
from support.places import SERVER
from support.planted import catches
from support.running import run_command
from support.server.front import Front
from support.server.kept import Kept
from support.server.manager import workers
from support.server.waits import wait_for
from support.serving import accepted

NGINX, POSTINST = "/etc/logrotate.d/nginx", f"{SERVER}/debian/package-index.postinst"


class Rotated:
    """nginx as root starts it on Debian, with both logs in folders as the package makes them, and with logrotate."""

    def __init__(self, front: Front, folder: str) -> None:
        self.front, self.folder, self.log = front, folder, f"{folder}/var/log/package-index/changes.log"
        self.conf = f"{front.folder}/conf.d/packages.conf"
        made = re.findall(r"install (-d -g adm -m \d+) \$logs\.new ", Path(POSTINST).read_text(), re.M)
        for path, words in (("nginx", ["-d"]), ("package-index", made[0].split())):
            run_command(["install", *words, f"{folder}/var/log/{path}"])
        run_command(["install", "-o", "www-data", "-g", "adm", "-m", "640", "/dev/null", self.log])
        # one that an upgrade left
        self.link = Path(f"{folder}/var/log/nginx/index-changes.log")
        self.link.symlink_to(self.log)
        self.put(self.conf, (f"{front.folder}/index-changes.log", self.log),
                 (f"{front.folder}/access.log", f"{folder}/var/log/nginx/access.log"))
        self.put(f"{front.folder}/nginx.conf", ("worker_processes", "user www-data;\nworker_processes"))
        reopens = f"kill -USR1 $(cat {front.folder}/nginx.pid)"
        Path(f"{folder}/logrotate.d").mkdir()
        for name, path in (("nginx", NGINX), ("package-index", f"{SERVER}/debian/package-index.logrotate")):
            shutil.copy(path, f"{folder}/logrotate.d/{name}")
            self.put(f"{folder}/logrotate.d/{name}", ("/var/log/", f"{folder}/var/log/"),
                     ("invoke-rc.d nginx rotate", reopens))

    @staticmethod
    def put(path: str, *pairs: tuple[str, str]) -> None:
        text = Path(path).read_text()
        for old, new in pairs:
            assert old in text, f"{path} has no {old}"
            text = text.replace(old, new)
        Path(path).write_text(text)

    def claim(self, name: str) -> None:
        """Claims a name, whose line has to be in the log at last, under its name of now."""
        accepted(self.front.claim(name))
        assert wait_for(lambda: f'\\"{name}\\"' in Path(self.log).read_text()), (name, self.files())

    def rotate(self) -> None:
        """A day goes by. Both workers have the new log then."""
        ended = run_command(["logrotate", "--force", "--state", f"{self.folder}/state", f"{self.folder}/logrotate.d"])
        assert (ended.returncode, ended.stdout) == (0, "")
        inode = str(os.stat(self.log).st_ino)
        assert wait_for(lambda: all(inode in opened(it) for it in workers(self.front.process.pid)))

    def files(self) -> list[str]:
        return sorted(os.listdir(os.path.dirname(self.log)))


def opened(process: int) -> set[str]:
    """The inodes of the files that a process has open."""
    found = set()
    for it in Path(f"/proc/{process}/fd").iterdir():
        try:
            found.add(str(it.stat().st_ino))
        except OSError:
            continue
    return found


@pytest.fixture
def rotation(kept_index: Kept, certificate: str, folder: str) -> Iterator[Rotated]:
    if os.geteuid():
        pytest.skip("only root starts workers of another user")
    want_command("logrotate", "logrotate")
    want_file(NGINX, "nginx-common")
    # workers of another user go through all of these
    os.chmod(folder, 0o755)
    made = Rotated(Front(f"{folder}/front", certificate, kept_index.port), folder)
    with made.front:
        yield made
        print(made.front.log())
        assert not made.front.errors()


def test_a_rotation_loses_no_line_and_a_worker_of_nginx_has_the_new_log(rotation):
    for name, files in (("one", ["changes.log"]), ("two", ["changes.log", "changes.log.1"]),
                        ("three", ["changes.log", "changes.log.1", "changes.log.2.gz"])):
        rotation.claim(name)
        assert rotation.files() == files
        rotation.rotate()
    assert [name_in for path in log_place.rotated(rotation.log) for line in changes.lines_of(path)
            for name_in in ("one", "two", "three") if f'"{name_in}' in line] == ["one", "two", "three"]


def test_the_log_and_its_folder_are_kept_from_others_and_from_workers(rotation):
    rotation.claim("one")
    rotation.rotate()
    rotation.claim("two")
    for path, mode, user in ((rotation.log, 0o640, "www-data"), (f"{rotation.log}.1", 0o640, "www-data"),
                             (os.path.dirname(rotation.log), 0o751, "root")):
        seen = Path(path).stat()
        assert (stat.S_IMODE(seen.st_mode), Path(path).owner(), Path(path).group()) == (mode, user, "adm"), path
    for user, words in (("www-data", ["touch", f"{rotation.log}.none"]), ("nobody", ["cat", rotation.log]),
                        ("nobody", ["ls", os.path.dirname(rotation.log)])):
        assert run_command(["runuser", "-u", user, "--", *words]).returncode, words


def test_nginx_s_own_rotation_leaves_the_link_of_an_upgrade_alone(rotation):
    rotation.claim("one")
    rotation.rotate()
    rotation.claim("two")
    assert rotation.link.is_symlink() and rotation.link.samefile(rotation.log)
    names = set(os.listdir(rotation.link.parent))
    assert names == {"index-changes.log", "access.log", "access.log.1"}


@catches("server/lib/package_index/followed.py", "if each != os.path.realpath(path):", "if each != path:")
def test_what_was_rotated_away_is_found_by_the_name_of_before_too(rotation, folder):
    """By a restore, by the follower, and by the history, whoever named the log."""
    rotation.claim("one")
    since = datetime.datetime.now(datetime.timezone.utc) - datetime.timedelta(hours=1)
    for name in ("two", "three"):
        rotation.rotate()
        rotation.claim(name)
    for log in (rotation.log, str(rotation.link)):
        said = changes.changes_since([log], since, f"{folder}/changes")
        assert said.startswith("nginx passed on 3 of them.")
        read = [line for line, _ in itertools.islice(followed.lines_from(log, None), 4)]
        assert [it.count("claim") for it in read] == [1, 1, 1, 0]
    ended = Control(folder, None, INDEX_TOKEN=None).run("history", *log_place.rotated(str(rotation.link)))
    assert_ends(ended, 0)
    assert [it.split()[5] for it in ended.stdout.splitlines()] == ["one", "two", "three"]


def test_400_days_are_kept(rotation):
    """Of each day a file, also of one without a change: the addresses in it are kept no longer."""
    rotation.claim("one")
    rotation.rotate()
    for number in (399, 400):
        shutil.copy(f"{rotation.log}.1", f"{rotation.log}.{number}.gz")
    rotation.rotate()
    assert rotation.files() == ["changes.log", "changes.log.1", "changes.log.2.gz", "changes.log.400.gz"]
