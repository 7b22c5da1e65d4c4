"""Each command of tools/, bench/ and tests/ answers a mistake in one sentence and at once, and tells its use in a few
lines."""
from __future__ import annotations

import os
import re
import shutil
import subprocess
import sys

import pytest
from support.needed import want_command, want_commands_of
from support.places import TOP
from support.planted import catches
from support.running import run_command

PYTHON, BASH = sys.executable, shutil.which("bash") or "bash"
COMMANDS = sorted(f"{room}/{name}" for room in ("tools", "bench", "tests") for name in os.listdir(f"{TOP}/{room}")
                  if os.access(f"{TOP}/{room}/{name}", os.X_OK) and os.path.isfile(f"{TOP}/{room}/{name}"))
# of the description of a command; the rest stands in a page
MOST_LINES = 4
# a command, with a file, a folder and the program in its words, and what its last line says
MISTAKES = [
    ("tools/list-specs none", "crates.txt names no crate none"),
    ("tools/list-specs --words none", "crates.txt names no crate none"),
    ("tools/package --program {folder}", "is not there; build it by tools/build"),
    ("tools/package --program {file}", "is not the index: Permission denied"),
    ("tools/package --program /bin/true", "is not the index: its --version is"),
    ("tools/package --program /bin/false", "is not the index: its --version ends with status 1"),
    ("tools/package --program {index} --out {file}", "is not a folder, and can't be made: File exists"),
    ("tools/package --version none", "VERSION begins with a digit"),
    ("SOURCE_DATE_EPOCH=none tools/package", "SOURCE_DATE_EPOCH is 'none', and not a number"),
    ("tools/release 9.9", "VERSION is MAJOR.MINOR.PATCH"),
    ("tools/release 9.9.9 --out {folder}", "is there already"),
    ("tools/release 9.9.9 --out {file}/new", "is not a folder that you may write to"),
    ("tools/try --folder {file}", "is not a folder. --folder names another"),
    ("tools/try --folder {folder}/..", "is not empty, and this command has not made it"),
    ("tools/build --lanes 0", "a number above 0 is wanted"),
    ("tools/try-edits --share 1/0", "a share such as 2/4 is wanted"),
    ("tools/try-rules --share 1/0", "a share such as 2/4 is wanted"),
    ("tools/try-rules --only none", "no refusal has the name none"),
    ("bench/bench --program {folder}", "no program is at"),
    ("bench/bench --part none", "invalid choice: 'none'"),
    ("bench/bench-behind-nginx --program {folder}", "no program is at"),
    ("tests/run --quick --program {folder}", "no program is at"),
    (f"{PYTHON} -B indexctl/build.py {{folder}}", "can't be written: Is a directory"),
]
OF_THE_KIT = [
    ("tools/build none", "crates.txt names no crate none"),
    ("tools/try-edits none", "crates.txt names no crate none"),
    ("tools/try-edits index_names --only none", "no wrong body has the name none"),
    ("tools/try-edits index_names --log {folder}", "can't be written: Is a directory"),
]
# each command where only Python is installed, and what it says is missing
ALONE = [
    ("tests/run", "README.md says which kit you need"),
    ("tools/try-edits", "README.md says which kit you need"),
    ("tools/check-style", "these are not installed: pyflakes3, shellcheck"),
    ("tools/package", "these are not installed: dh, "),
    ("bench/bench --program {index}", "wrk is not installed"),
    ("bench/bench-behind-nginx --program {index}", "nginx or openssl is not installed"),
]


@pytest.fixture
def answers(tmp_path, looked):
    """Runs a command, and looks whether it answers in one sentence, below its use if it tells that too."""
    (tmp_path / "folder").mkdir()
    (tmp_path / "file").write_text("none\n")
    index = tmp_path / "index"
    index.write_text("#!/bin/sh\necho 'index 1 (a kit)'\n")
    index.chmod(0o755)

    def answer(line: str, said: str, **more: str) -> None:
        line = line.format(file=tmp_path / "file", folder=tmp_path / "folder", index=index)
        ended = subprocess.run([BASH, "-c", line], cwd=TOP, stdin=subprocess.DEVNULL, stdout=subprocess.PIPE,
                               stderr=subprocess.STDOUT, text=True, env={**os.environ, **more}, timeout=60)
        *before, last = ended.stdout.strip().splitlines()
        looked(ended.returncode in (1, 2, 4) and said in last, line, ended.stdout)
        looked(not before or before[0].startswith("usage: "), line, ended.stdout)

    return answer


@catches("tools/package", 'if not told.startswith("index "):', "if not told:",
         case="tools/package --program /bin/true-is not the index: its --version is")
@catches("tools/release", "if not os.path.isdir(above) or not os.access(above, os.W_OK | os.X_OK):",
         "if not os.path.lexists(above):",
         case="tools/release 9.9.9 --out {file}/new-is not a folder that you may write to")
@pytest.mark.parametrize("line, said", MISTAKES)
def test_a_mistake_is_answered_in_one_sentence(answers, line, said):
    want_commands_of(line)
    answers(line, said)


@pytest.mark.skipif(not shutil.which("rt"), reason="the kit is not installed")
@pytest.mark.parametrize("line, said", OF_THE_KIT)
def test_a_mistake_in_the_words_for_the_kit_is_answered_in_one_sentence(answers, line, said):
    answers(line, said)


@pytest.mark.parametrize("line, said", ALONE)
def test_what_is_not_installed_is_named(answers, tmp_path, line, said):
    want_command("git", "git")
    (tmp_path / "bin").mkdir()
    for name in ("env", "git"):
        os.symlink(shutil.which(name), tmp_path / "bin" / name)
    os.symlink(PYTHON, tmp_path / "bin" / "python3")
    answers(line, said, PATH=f"{tmp_path}/bin")


@pytest.mark.parametrize("command", COMMANDS)
def test_a_command_tells_its_use_in_a_few_lines(command):
    ended = run_command([PYTHON, "-B", f"{TOP}/{command}", "--help"])
    use, _, behind = ended.stdout.partition("\n\n")
    described = re.split("^(?:positional arguments|options):$", behind, 1, re.M)[0]
    lines = [it for it in described.splitlines() if it]
    assert ended.returncode == 0 and use.startswith("usage: ") and 0 < len(lines) <= MOST_LINES, ended.stdout
