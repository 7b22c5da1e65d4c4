"""What tools/package and tools/release leave behind if they fail or are interrupted, and what they take from whom calls
them. They run in a small repository in which debhelper and a proof are a few lines."""
from __future__ import annotations

import os
import re
import shlex
import signal
import subprocess
import sys
from collections.abc import Iterator
from contextlib import contextmanager
from pathlib import Path
from subprocess import CompletedProcess

import pytest
from support.needed import want_command
from support.planted import catches
from support.running import goes_on, run_command
from support.server.released import TAG, VERSION, Repository
from support.server.waits import wait_for

NAME = f"package-index_{VERSION}_amd64.deb"
RULES = r"""#!/usr/bin/make -f
%:
	true
binary:
	env > '{folder}/environment'
	. '{folder}/acts'
	name=package-index_$$(dpkg-parsechangelog -S Version)_amd64.deb && head -c 100000 /dev/zero > ../$$name && \
	echo "$$name net optional" > debian/files
"""
BUILD = r"""#!/bin/sh
. '{folder}/proves'
cd "$(dirname "$0")/.." && mkdir -p crates/index/out
version=$(sed -n 's/^const VERSION: &str = "\(.*\)";$/\1/p' crates/index_args/src/command.rt)
printf '#!/bin/sh\necho "index %s"\n' "$version" > crates/index/out/index
chmod 755 crates/index/out/index
"""
# goes on until it is ended
WAITS = "sleep 60 & echo $! > '{folder}/waits.new'; mv '{folder}/waits.new' '{folder}/waits'; wait"
# the first thread hears no signal by itself, as if it came just before its wait
DEAF = """
import signal, subprocess, sys, threading
sys.path.insert(0, sys.argv[1])
from children import leave_at_signals, run
threading.Thread(target=threading.Event().wait, daemon=True).start()
leave_at_signals()
signal.pthread_sigmask(signal.SIG_BLOCK, [signal.SIGHUP])
run(["sh", sys.argv[2]], stdout=subprocess.PIPE)
"""
# a small disk with a package of before; what is there at the end is printed last
DISK = """mount -t tmpfs -o size=64k none "$1" && echo before > "$1/$2" || exit 3
folder=$1 name=$2; shift 2; "$@"; echo "status $?"; ls -A "$folder"; cat "$folder/$name" """


class Tried(Repository):
    """A repository whose path has a blank, with a program that is built."""

    def __init__(self, folder: Path) -> None:
        super().__init__(f"{folder}/a clone")
        self.folder, self.out, self.program = folder, f"{folder}/out", f"{folder}/index"
        for name in ("acts", "proves"):
            self.does(name, "true")
        for path, text in (("server/debian/rules", RULES), ("tools/build", BUILD)):
            self.put(path, text.replace("{folder}", str(folder)))
            os.chmod(f"{self.top}/{path}", 0o755)
        Path(self.program).write_text("#!/bin/sh\necho 'index 1 (a kit)'\n")
        os.chmod(self.program, 0o755)
        (folder / "tmp").mkdir()
        self.committed()

    def does(self, name: str, text: str) -> None:
        (self.folder / name).write_text(text.format(folder=self.folder) + "\n")

    def words(self, tool: str) -> list[str]:
        of_it = {"package": ["--program", self.program, "--version", VERSION], "release": [VERSION]}
        return [sys.executable, f"{self.top}/tools/{tool}", *of_it[tool], "--out", self.out]

    def setting(self) -> dict[str, str]:
        return {"TMPDIR": f"{self.folder}/tmp"}

    def ended(self, *words: str, **more: str) -> CompletedProcess:
        return run_command(words, **{**self.setting(), **more})

    @contextmanager
    def waiting(self, *words: str) -> Iterator[subprocess.Popen]:
        """A command in whose midst something waits."""
        with subprocess.Popen(words, env={**os.environ, **self.setting()}, stdout=subprocess.PIPE, text=True,
                              stderr=subprocess.STDOUT, start_new_session=True) as command:
            try:
                assert wait_for((self.folder / "waits").exists, 60)
                yield command
            finally:
                command.kill()

    def is_waiting(self) -> bool:
        """Whether that goes on."""
        return goes_on(int((self.folder / "waits").read_text()))

    def left(self) -> list[str]:
        return os.listdir(f"{self.folder}/tmp")


@pytest.fixture
def tried(tmp_path: Path) -> Tried:
    for command, package in (("dh", "debhelper"), ("dpkg-buildpackage", "dpkg-dev"), ("help2man", "help2man"),
                             ("make", "make"), ("strip", "binutils"), ("git", "git")):
        want_command(command, package)
    return Tried(tmp_path)


@catches("tools/package", 'setting = {"SOURCE_DATE_EPOCH"', 'setting = {**os.environ, "SOURCE_DATE_EPOCH"')
def test_no_setting_of_yours_reaches_a_package(tried):
    ended = tried.ended(*tried.words("package"), COLUMNS="40", DEB_BUILD_OPTIONS="nostrip", MAKEFLAGS="-n")
    assert (ended.returncode, ended.stdout) == (0, f"{tried.out}/{NAME}\n")
    seen = (tried.folder / "environment").read_text()
    assert "SOURCE_DATE_EPOCH=" in seen and "COLUMNS" not in seen and "nostrip" not in seen


@catches("tools/package", 'shutil.copyfile(f"{folder}/{package}", f"{beside}/{package}")',
         'shutil.copyfile(f"{folder}/{package}", f"{words.out}/{package}")')
def test_a_disk_that_is_full_leaves_the_package_of_before(tried):
    os.mkdir(tried.out)
    ended = tried.ended("unshare", "--mount", "--propagation", "private", "sh", "-c", DISK, "sh", tried.out, NAME,
                        *tried.words("package"))
    if ended.returncode == 3 or "unshare" in ended.stdout:
        pytest.skip("this machine lets nobody mount a file system")
    said, *seen = ended.stdout.splitlines()
    assert said.startswith(f"package: {tried.out} gets no package: [Errno 28] No space left on device")
    assert seen == ["status 1", NAME, "before"] and tried.left() == []


@catches("tools/lib/children.py", "signal.signal(it, leave)", "pass", case="TERM-package-acts")
@catches("tools/lib/children.py", "os.killpg(child.pid, signal.SIGTERM)", "child.terminate()", case="INT-package-acts")
@pytest.mark.parametrize("tool, place", [("package", "acts"), ("release", "proves")])
@pytest.mark.parametrize("name", ["INT", "TERM", "HUP"])
def test_what_is_interrupted_ends_with_all_that_it_started_and_leaves_nothing(tried, tool, place, name):
    tried.does(place, WAITS)
    number = signal.Signals[f"SIG{name}"]
    with tried.waiting(*tried.words(tool)) as command:
        command.send_signal(number)
        said, _ = command.communicate(timeout=60)
    assert (command.returncode, said) == (128 + number, "") and wait_for(lambda: not tried.is_waiting(), 10)
    assert tried.left() == [] and not (os.path.exists(tried.out) and os.listdir(tried.out))


@catches("tools/lib/children.py", "communicate(timeout=0.5)", "communicate()")
def test_a_signal_that_comes_just_before_a_wait_is_heard(tried):
    tried.does("acts", WAITS)
    with tried.waiting(sys.executable, "-c", DEAF, f"{tried.top}/tools/lib", f"{tried.folder}/acts") as command:
        command.send_signal(signal.SIGHUP)
        said, _ = command.communicate(timeout=30)
    assert (command.returncode, said) == (128 + signal.SIGHUP, "") and wait_for(lambda: not tried.is_waiting(), 10)


def test_what_nohup_began_goes_on_after_a_hang_up(tried):
    tried.does("acts", WAITS.replace("60", "1"))
    with tried.waiting("nohup", *tried.words("package")) as command:
        command.send_signal(signal.SIGHUP)
        said, _ = command.communicate(timeout=60)
    assert command.returncode == 0 and said.endswith(f"{tried.out}/{NAME}\n")


@catches("tools/release", "return shlex.join([", 'return " ".join([')
def test_the_command_of_a_tag_can_be_pasted_if_a_path_has_a_blank(tried):
    tried.out = f"{tried.folder}/a release"
    ended = tried.ended(*tried.words("release"))
    assert ended.returncode == 0 and os.listdir(tried.out)
    tried.git(*shlex.split(ended.stdout.splitlines()[-1])[1:])
    assert tried.git("tag", "--list") == TAG


@catches("tools/release", "shutil.rmtree(out, ignore_errors=True)", "pass")
def test_a_release_that_a_full_disk_cuts_off_is_not_there(tried):
    tried.out = f"{tried.folder}/disk/release"
    os.mkdir(f"{tried.folder}/disk")
    ended = tried.ended("unshare", "--mount", "--propagation", "private", "sh", "-c", DISK, "sh",
                        f"{tried.folder}/disk", "before", *tried.words("release"))
    if ended.returncode == 3 or "unshare" in ended.stdout:
        pytest.skip("this machine lets nobody mount a file system")
    said, *seen = ended.stdout.splitlines()
    assert said.startswith("release: [Errno 28] No space left on device") and tried.left() == []
    assert seen == ["status 1", "before", "before"]


@catches("tools/package", '"GIT_CEILING_DIRECTORIES"', '"GIT_CEILING"')
def test_a_tree_without_git_has_no_commit_of_the_repository_around_it(tried):
    os.rename(f"{tried.top}/.git", f"{tried.folder}/.git")
    ended = tried.ended(*tried.words("package")[:4], "--out", tried.out)
    assert ended.returncode == 0 and ended.stdout.endswith(".unknown_amd64.deb\n"), ended


@catches("tools/package", '"-c", f"safe.directory={TOP}", "-C", TOP, "log"', '"-C", TOP, "log"')
@pytest.mark.skipif(os.geteuid() != 0, reason="only root may give a repository to another user")
def test_the_repository_of_another_user_has_its_commit(tried):
    """As in a container, where git else refuses to look at it."""
    for path in (tried.top, f"{tried.top}/.git"):
        os.chown(path, 65534, 65534)
    ended = tried.ended(*tried.words("package")[:4], "--out", tried.out, SUDO_UID="0")
    assert ended.returncode == 0 and re.search(r"git20300102030405\.[0-9a-f]{7,}_amd64\.deb$", ended.stdout), ended


@catches("tools/package", 'ignore_patterns("__pycache__", ".*", "*~")', 'ignore_patterns("__pycache__", ".#*", "*~")')
def test_what_an_editor_leaves_is_not_in_a_package(tried):
    """The lock of Emacs leads nowhere."""
    tried.does("acts", "find server indexctl docs -name '.*' -o -name '*~' > '{folder}/found'")
    os.symlink("ann@host.1", f"{tried.top}/docs/.#PAGE.md")
    for path in ("server/bin/index-alarm~", "docs/operators/.PAGE.md.swp", "indexctl/.mypy_cache/a.json"):
        tried.put(path, "")
    ended = tried.ended(*tried.words("package"))
    assert (ended.returncode, ended.stdout) == (0, f"{tried.out}/{NAME}\n")
    assert (tried.folder / "found").read_text() == ""


@catches("tools/package", '"--abbrev=12",', "")
def test_the_name_of_a_package_is_the_same_whatever_git_is_set_to(tried):
    """Git shows as much of a commit as a clone needs: of a whole one more than of a shallow one."""
    short = tried.ended("git", "-C", tried.top, "rev-parse", "--short=12", "HEAD").stdout.strip()
    for much in ("5", "9"):
        tried.git("config", "core.abbrev", much)
        ended = tried.ended(*tried.words("package")[:4], "--out", tried.out)
        assert ended.returncode == 0 and ended.stdout.endswith(f".{short}_amd64.deb\n"), ended


@catches("tools/release", '"--config", "core.autocrlf=false",', "")
def test_a_release_is_the_same_whatever_git_makes_of_the_ends_of_lines(tried):
    (tried.folder / "gitconfig").write_text("[core]\n\tautocrlf = true\n")
    for name, setting in (("one", {}), ("other", {"GIT_CONFIG_GLOBAL": f"{tried.folder}/gitconfig"})):
        tried.out = f"{tried.folder}/{name}"
        ended = tried.ended(*tried.words("release"), **setting)
        assert ended.returncode == 0, ended
    sums = [(tried.folder / name / "SHA256SUMS").read_text() for name in ("one", "other")]
    assert sums[0] == sums[1]
