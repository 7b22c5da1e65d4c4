"""The hooks of git in tools/hooks, in a repository of their own, whose checks refuse a page that says 'wrong'."""
from __future__ import annotations

import shutil
import subprocess
from pathlib import Path

import pytest
from support.needed import want_command
from support.places import TOP

CHECK = '#!/bin/sh\n! grep wrong "$(dirname "$0")/../page.md"\n'


@pytest.fixture
def repository(tmp_path: Path) -> Path:
    want_command("git", "git")
    shutil.copytree(f"{TOP}/tools/hooks", tmp_path / "tools/hooks")
    for name in ("check-docs", "check-style"):
        (tmp_path / "tools" / name).write_text(CHECK)
        (tmp_path / "tools" / name).chmod(0o755)
    (tmp_path / "page.md").write_text("right\n")
    for words in (["init", "--quiet"], ["config", "core.hooksPath", "tools/hooks"], ["config", "user.name", "ann"],
                  ["config", "user.email", "ann@example.org"], ["add", "."]):
        assert not git(tmp_path, *words).returncode
    return tmp_path


def git(folder: Path, *words: str) -> subprocess.CompletedProcess[str]:
    return subprocess.run(["git", *words], cwd=folder, stdin=subprocess.DEVNULL, stdout=subprocess.PIPE,
                          stderr=subprocess.STDOUT, text=True)


def commits(folder: Path, *words: str) -> bool:
    """Whether git makes a commit."""
    return not git(folder, "commit", "--quiet", *words).returncode


def test_a_subject_above_72_characters_is_refused(repository: Path) -> None:
    assert not commits(repository, "-m", "x" * 73)
    assert commits(repository, "-m", f"{'ä' * 72}\n\n{'x' * 100}")


def test_what_a_commit_lacks_is_not_looked_at(repository: Path) -> None:
    (repository / "page.md").write_text("wrong\n")
    assert commits(repository, "-m", "first")
    # what it has is, also where the tree has something else by now
    git(repository, "add", "page.md")
    (repository / "page.md").write_text("right\n")
    assert not commits(repository, "-m", "second")
    assert commits(repository, "-a", "--allow-empty", "-m", "third")
