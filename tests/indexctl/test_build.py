"""The one file to copy: it runs alone, and the same sources give the same bytes."""
from __future__ import annotations

import os
import shutil
import subprocess
import sys
import zipfile

import pytest
from support.indexctl.control import Control, assert_ends, environment
from support.places import INDEXCTL, TOP
from support.serving import Index

pytestmark = pytest.mark.xdist_group("build")


def built(top, target):
    subprocess.run([sys.executable, "-B", f"{top}/indexctl/build.py", target], check=True, timeout=60)
    with open(target, "rb") as made:
        return made.read()


@pytest.fixture(scope="module")
def one_file(shared_folder):
    path = f"{shared_folder}/alone/indexctl"
    os.mkdir(os.path.dirname(path))
    built(TOP, path)
    return path


def run(*words, **setting):
    return subprocess.run(words, env=environment(**setting), stdin=subprocess.DEVNULL, stdout=subprocess.PIPE,
                          stderr=subprocess.STDOUT, text=True, timeout=60)


def test_the_same_sources_give_the_same_bytes(folder, one_file):
    for room in ("indexctl", "server/lib"):
        # in another order and with other times
        shutil.copytree(f"{TOP}/{room}", f"{folder}/copy/{room}", copy_function=shutil.copyfile)
    with open(one_file, "rb") as kept:
        assert built(f"{folder}/copy", f"{folder}/again") == kept.read()


@pytest.mark.parametrize("words", [["--help"], ["man"], ["completion", "bash"], ["case", "transfer", "--help"]],
                         ids=["help", "man", "completion", "help_of_a_command"])
def test_it_prints_what_the_package_prints(one_file, words):
    ended = [run(*command, *words, COLUMNS="100") for command in ([one_file], INDEXCTL)]
    assert ended[0].returncode == 0 and ended[0].stdout == ended[1].stdout


def test_it_runs_as_a_module_in_a_clone():
    ended = subprocess.run([sys.executable, "-S", "-B", "-m", "indexctl", "--help"], cwd=TOP, env=environment(),
                           stdout=subprocess.PIPE, stderr=subprocess.STDOUT, text=True, timeout=60)
    assert ended.returncode == 0 and ended.stdout.startswith("usage: indexctl "), ended.stdout


def test_it_writes_the_page_of_the_office(program, one_file, folder):
    with Index(program) as index:
        by = Control(folder, f"http://127.0.0.1:{index.port}")
        ended = run(one_file, "page", folder, **{**by.setting, "INDEX_TOKEN": "office"})
        assert ended.returncode == 0, ended.stdout
        assert_ends(by.run("page", f"{folder}/home"), 0)
    assert os.path.getsize(f"{folder}/index.html") == os.path.getsize(f"{folder}/home/index.html") > 5_000


def test_it_holds_what_it_runs_and_no_more(one_file):
    names = zipfile.ZipFile(one_file).namelist()
    assert names == sorted(names)
    assert {"__main__.py", "indexctl/page.css", "indexctl/main.py", "package_index/names.py"} <= set(names)
    assert {it for it in names if it.startswith("package_index/")} == {
        f"package_index/{it}.py" for it in ("__init__", "changes", "hints", "log_place", "names", "shown")}
    assert "indexctl/build.py" not in names and not [it for it in names if "__pycache__" in it]


def test_everybody_may_run_it(one_file):
    assert os.stat(one_file).st_mode & 0o777 == 0o755
