"""The gate installs what its tests ask for: a test that is skipped there sees nothing. Others go on with what they
have, and are told what was left out."""
from __future__ import annotations

import ast
import glob
import os
import re
import sys
from pathlib import Path

import pytest
import skips
from support import set_up
from support.inner_runs import copy_rooms
from support.needed import left_out
from support.places import TOP
from support.planted import catches
from support.programs import program_of
from support.running import run_command, write_below

ASKED = re.compile(r'want_(?:command|module)\((?:\w+, )?"[^"]+", "([^"]+)"\)')
# of each Debian, or with another package
THERE = {"systemd", "util-linux", "python3-keyring"}
# of tests that are run by hand alone
BY_HAND = {"debootstrap"}


@catches("tests/support/set_up.py", '"lintian": "lintian",', "")
@catches("tests/support/set_up.py", '"nftables": "nft",', "")
def test_each_package_that_a_test_asks_for_is_installed():
    asked = set()
    for path in glob.glob(f"{TOP}/tests/**/*.py", recursive=True):
        with open(path, encoding="utf-8") as kept:
            asked |= {*ASKED.findall(kept.read())}
    assert {"nginx-light", "nftables", "python3-html5lib"} <= asked
    # (one is unpacked, and not installed)
    assert not asked - set_up.QUICK.keys() - set_up.SLOW.keys() - THERE - BY_HAND - {"prometheus"}


@catches("tests/support/set_up.py", '(os.path.exists(shows) if shows[0] == "/" else shutil.which(shows))',
         '(shows[0] == "/" or shutil.which(shows))')
def test_a_package_is_there_by_its_command_its_file_or_its_module(tmp_path):
    (tmp_path / "file").touch()
    there = {"a": "sh", "b": f"{tmp_path}/file", "c": "import json"}
    assert set_up.missing({**there, "d": "no-such-command", "e": "/none", "f": "import no_such_module"}) == [*"def"]


# in the place of Debian's: it keeps its words, and knows no package of the name
APT = """#!/bin/sh
echo "$*" | sed 's/.*\\(update\\|install .*\\)/\\1/' >> '{folder}/asked'
case "$*" in *rare*) echo 'E: Unable to locate package rare'; exit 100;; esac
"""


@pytest.fixture
def bare(tmp_path, monkeypatch):
    """A machine of root's without two packages, of which apt-get does not have one."""
    write_below(tmp_path, "bin/apt-get", APT.format(folder=tmp_path))
    (tmp_path / "bin/apt-get").chmod(0o755)
    monkeypatch.setenv("PATH", f"{tmp_path}/bin", prepend=os.pathsep)
    monkeypatch.setattr(os, "geteuid", lambda: 0)
    monkeypatch.setattr(set_up, "missing", lambda wanted: ["plain", "rare"])
    monkeypatch.delenv("CI", raising=False)
    return tmp_path


@catches("tests/support/set_up.py", "and len(packages) > 1:", "and len(packages) > 9:")
def test_packages_are_installed_together_and_one_by_one_if_that_fails(bare, capsys):
    set_up.install_missing(is_quick=True)
    asked = (bare / "asked").read_text().splitlines()
    words = "install --yes --no-install-recommends"
    assert asked == ["update", f"{words} plain rare", f"{words} plain", f"{words} rare"]
    said = capsys.readouterr().out
    assert said.startswith("the tests need 2 packages of Debian: plain rare\n")
    assert "  E: Unable to locate package rare\n" in said and said.endswith("still missing: plain rare\n")


@catches("tests/support/set_up.py", "elif lacks and is_gate():", "elif not lacks and is_gate():")
def test_a_user_goes_on_with_what_is_there_and_in_the_gate_is_told_how_to_get_it(bare, monkeypatch):
    monkeypatch.setattr(os, "geteuid", lambda: 1000)
    set_up.install_missing(is_quick=True)
    monkeypatch.setenv("CI", "true")
    with pytest.raises(SystemExit, match="\n  sudo apt-get install --no-install-recommends plain rare$"):
        set_up.install_missing(is_quick=True)
    assert not (bare / "asked").exists()


class Elsewhere(Exception):
    """The run goes on by another Python."""


@pytest.fixture
def goes_on(monkeypatch):
    """On a machine where these Pythons have pytest: by which the run goes on, and what was run for it."""
    def go_on(*have: str, comes: bool = True) -> tuple[str, list[str]]:
        ran: list[str] = []

        def does(text: str, words: list[str]) -> bool:
            ran.append(text)
            return comes

        def exec_it(path: str, words: list[str]) -> None:
            assert words[1:3] == ["-B", "script"], words
            raise Elsewhere(path)

        def modules_of(python: str, names: list[str]) -> list[str]:
            return [*names] if python in have or len(ran) == 2 and python == f"{set_up.OWN}/bin/python" else []

        for name, value in (("does", does), ("modules_of", modules_of)):
            monkeypatch.setattr(set_up, name, value)
        monkeypatch.setattr(os, "execv", exec_it)
        try:
            set_up.go_on_by_a_python_with_pytest("script")
        except Elsewhere as end:
            return str(end), ran
        return sys.executable, ran

    return go_on


@catches("tests/support/set_up.py", 'shutil.which("python3") or DEBIAN, DEBIAN, own)), "")',
         'shutil.which("python3") or DEBIAN, DEBIAN)), "")')
def test_a_run_goes_on_by_a_python_that_has_pytest(goes_on, monkeypatch):
    monkeypatch.setattr(set_up.shutil, "which", lambda name: "/active/python3")
    own = f"{set_up.OWN}/bin/python"
    assert goes_on(sys.executable) == (sys.executable, [])
    monkeypatch.setattr(sys, "executable", "/bare/python3")
    assert goes_on("/active/python3", own) == ("/active/python3", [])
    assert goes_on(set_up.DEBIAN, own) == (set_up.DEBIAN, []) and goes_on(own) == (own, [])
    assert goes_on() == (own, ["making tests/out/venv", "getting what tests/requirements.txt names"])
    with pytest.raises(SystemExit, match="nothing was tested(.|\n)*apt-get install python3-pytest (.|\n)*venv/bin/pip"):
        goes_on(comes=False)


# a package of a kernel is an archive, and one alone can be unpacked
APT_OF_KERNEL = """#!/bin/sh
case "$*" in *download*) mkdir -p boot lib && tar -cf linux-image-6_2_amd64.deb ./boot ./lib;; esac
"""
CACHE = "#!/bin/sh\necho '  Depends: linux-image-6'\n"
DPKG = "#!/bin/sh\n[ $# = 2 ] && exec cat \"$2\"\n"


@catches("tests/support/set_up.py", "shutil.rmtree(part, ignore_errors=True)", "pass")
def test_a_kernel_that_a_killed_run_was_unpacking_is_unpacked_by_the_next(tmp_path, monkeypatch):
    for name, text in (("apt-get", APT_OF_KERNEL), ("apt-cache", CACHE), ("dpkg-deb", DPKG)):
        write_below(tmp_path, f"bin/{name}", text)
        (tmp_path / "bin" / name).chmod(0o755)
    write_below(tmp_path, "out/kernel.part/linux-image-6_1_amd64.deb", "half")
    monkeypatch.setenv("PATH", f"{tmp_path}/bin", prepend=os.pathsep)
    monkeypatch.setattr(set_up, "OUT", f"{tmp_path}/out")
    set_up.unpack_kernel()
    assert os.listdir(tmp_path / "out") == ["kernel"]
    assert sorted(os.listdir(tmp_path / "out/kernel")) == ["boot", "lib"]


@catches("tests/support/set_up.py", 'if made.is_dir() or not shutil.which("apt-cache"):',
         'if not shutil.which("apt-cache"):')
def test_promtool_is_unpacked_once_and_its_server_is_not(tmp_path, monkeypatch):
    made = ("mkdir -p usr/bin && touch usr/bin/promtool usr/bin/prometheus && "
            "tar -cf prometheus_2_amd64.deb ./usr && rm -r usr")
    for name, text in (("apt-get", f"#!/bin/sh\necho >> '{tmp_path}/calls'\n{made}\n"), ("apt-cache", ""),
                       ("dpkg-deb", DPKG)):
        write_below(tmp_path, f"bin/{name}", text)
        (tmp_path / "bin" / name).chmod(0o755)
    monkeypatch.setenv("PATH", f"{tmp_path}/bin", prepend=os.pathsep)
    monkeypatch.setattr(set_up, "OUT", f"{tmp_path}/out")
    for _ in range(2):
        set_up.unpack_promtool()
    found = [str(it.relative_to(tmp_path)) for it in (tmp_path / "out").rglob("*") if it.is_file()]
    assert found == ["out/promtool/usr/bin/promtool"]
    assert (tmp_path / "calls").read_text() == "\n"


@catches("tests/support/needed.py", r"is not installed: package (\S+) of Debian has it$",
         r"is not installed: a package (\S+) of Debian has it$")
def test_what_was_left_out_is_counted_by_packages_and_by_reasons():
    reasons = {f"{name} is not installed: package {package} of Debian has it": count for name, package, count in
               (("nginx", "nginx-light", 2), ("chromium", "chromium", 1), ("openssl", "openssl", 4))}
    assert left_out({**reasons, "only root may": 3}) == (
        "NOT RUN: 10 tests\n"
        "  7 for want of openssl (4), nginx-light (2), chromium (1): get these by\n"
        "    sudo apt-get install --no-install-recommends openssl nginx-light chromium\n"
        "  3: only root may")
    assert left_out({"only root may": 3}) == "NOT RUN: 3 tests\n  3: only root may"


# a room of tests, of which some are skipped, also by what they ask for
CONFTEST = """import pytest

@pytest.fixture
def below():
    pytest.skip("of a fixture: 3")
"""
TESTS = """import pytest

@pytest.mark.parametrize("reason", ["known: 3", "unknown"])
def test_a(reason):
    pytest.skip(reason)

@pytest.mark.skipif(True, reason="of a mark")
def test_b():
    pass

@pytest.mark.xfail
def test_c():
    assert False

def test_d(below):
    pass
"""


@catches("tests/conftest.py", "if not skips.may_be_skipped(report.longrepr[0], reason):", "if not reason:",
         case="gate0")
@catches("tests/conftest.py", "if is_gate() and report.skipped", "if report.skipped", case="gate1")
@pytest.mark.parametrize("gate", [{"CI": "true"}, {"CI": ""}])
def test_in_the_gate_a_test_fails_that_is_skipped_for_another_reason_than_those_of_the_list(tmp_path, gate):
    copy = copy_rooms(str(tmp_path))
    write_below(tmp_path, "tests/program/below/conftest.py", CONFTEST)
    write_below(tmp_path, "tests/program/below/test_skips.py", TESTS)
    write_below(tmp_path, "tests/skips.txt", "# why\ntests/program/below/test_skips.py: known: *\n"
                                             "tests/program/below/conftest.py: of a fixture: *\n")
    ended = run_command([sys.executable, "-B", "-m", "pytest", "-q", "-n", "0",
                         f"{copy}/tests/program/below/test_skips.py"], **gate)
    lines = ended.stdout.splitlines()
    assert lines[-1] == ("0 passed, 2 failed" if gate["CI"] else "0 passed, 0 failed"), ended.stdout
    assert ended.returncode == (1 if gate["CI"] else 0)
    assert ("  1: unknown" in lines) == (not gate["CI"])
    assert "  1: known: 3" in lines and "  1: of a fixture: 3" in lines


@catches("tools/lib/skips.py", 'return name == "conftest.py" and place.startswith(f"{folder}/")',
         'return name == "conftest.py"')
@pytest.mark.parametrize("path, reason, may", [
    ("tests/clients/conftest.py", "python3 is Debian's own", True),
    ("tests/clients/test_a.py", "python3 is Debian's own", True),
    ("tests/clients/below/test_a.py", "python3 is Debian's own", True),
    ("tests/clients/test_a.py", "another", False),
    ("tests/clients_of_others/test_a.py", "python3 is Debian's own", False),
    ("tests/test_a.py", "python3 is Debian's own", False),
    ("tests/clients/test_b.py", "of one file", True),
    ("tests/clients/test_a.py", "of one file", False),
])
def test_a_skip_may_be_of_the_file_of_the_test_or_of_a_conftest_above_it(monkeypatch, path, reason, may):
    monkeypatch.setattr(skips, "rows", lambda: [("tests/clients/conftest.py", "python3 is Debian's own"),
                                                ("tests/clients/test_b.py", "of one file")])
    assert skips.may_be_skipped(f"{TOP}/{path}", reason) == may


@catches("tools/lib/skips.py", 'if name in ("skip", "skipif", "importorskip"):', 'if name in ("skip", "importorskip"):')
def test_each_skip_of_a_test_has_a_line(monkeypatch):
    rows = [("a.py", "this machine *"), ("a.py", "more: only root *"), ("b.py", "x")]
    monkeypatch.setattr(skips, "rows", lambda: rows)
    tree = ast.parse('pytest.skip("this machine lets nobody")\npytest.skip(f"more: {why}")\npytest.skip(why)\n'
                     'pytest.importorskip("a", reason="no a")\n@pytest.mark.skipif(True, reason="other")\n'
                     'def test_a(): pass\n')
    assert skips.unknown_skips("a.py", tree) == ["line 4: a.py: no a", "line 5: a.py: other"]
    assert len(skips.unknown_skips("c.py", tree)) == 5 and skips.idle_rows({"a.py": tree}) == ["b.py"]


@catches("tests/run", "style.words, style.status = [], 0", "style.status = 0")
def test_a_run_by_a_user_leaves_out_what_checks_style_without_its_linters(monkeypatch):
    gate = program_of(f"{TOP}/tests/run")
    monkeypatch.setattr(gate.shutil, "which", lambda name: None if name == "mypy" else f"/usr/bin/{name}")
    monkeypatch.setenv("CI", "")
    style, docs = gate.checks()
    style.run()
    assert (style.status, style.failed, bool(docs.words)) == (0, 0, True)
    assert gate.LEFT_OUT.findall(f"said\n{style.output}\nmore") == [
        "NOT RUN: tools/check-style\n  get what it needs by sudo apt-get install --no-install-recommends mypy"]
    monkeypatch.setenv("CI", "true")
    assert all(it.words for it in gate.checks())


def test_the_gate_leaves_nothing_out(tmp_path):
    for name in (".ci/run", "tests/run"):
        write_below(tmp_path, name, Path(TOP, name).read_text() if name == ".ci/run" else "#!/bin/sh\necho $CI $*\n")
        (tmp_path / name).chmod(0o755)
    assert run_command([f"{tmp_path}/.ci/run", "--quick"], CI="").stdout == "true --quick\n"
