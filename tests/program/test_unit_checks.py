"""Which files tools/check-docs and tools/check-style look at, what they want of CHANGELOG, and how they print what the
locale lacks."""
from __future__ import annotations

import os
import sys

import pytest
import top
from pages import changes, files
from support.places import TOP
from support.planted import catches
from support.running import run_command, write_below
from trial import parser_of


@catches("tools/lib/top.py", 'for it in sorted(names) if it[0] != "."]', "for it in sorted(names)]")
@catches("tools/lib/top.py", '"__pycache__") and it[0] != ".")', '"__pycache__"))')
def test_what_is_no_file_of_the_repository_is_not_looked_at(tmp_path, monkeypatch):
    """A lock of an editor leads nowhere."""
    for path in ("docs/A.md", "docs/out/B.md", ".venv/C.md", "tools/d", "tools/.d", "try/E.md", "tools/__pycache__/f"):
        write_below(tmp_path, path, "")
    os.symlink("ann@host.1", tmp_path / "docs/.#A.md")
    for module in (top, files):
        monkeypatch.setattr(module, "TOP", str(tmp_path))
    assert files.pages() == ["docs/A.md"]
    assert top.files_below("tools") == ["tools/d"] and top.files_below("") == ["docs/A.md", "tools/d"]


@catches("tools/lib/trial.py", 'sys.stdout.reconfigure(errors="backslashreplace")', "pass")
def test_what_the_locale_lacks_is_printed_as_an_escape():
    """As by LC_ALL=de_DE, which is Latin-1."""
    prints = "from trial import parser_of; parser_of('a', has_program=False); print('\u2261')"
    ended = run_command([sys.executable, "-c", prints], PYTHONPATH=f"{TOP}/tools/lib", PYTHONIOENCODING="iso8859-1")
    assert (ended.returncode, ended.stdout) == (0, "\\u2261\n")


@catches("tools/lib/trial.py", "if isinstance(sys.stdout, io.TextIOWrapper):", "if True:")
def test_no_output_is_needed(monkeypatch):
    monkeypatch.setattr(sys, "stdout", None)
    assert parser_of("a", has_program=False)


def a_section(new=("1. New.",), first="### What you do first, as an operator\n\n1. Nothing.\n", more=""):
    """The text of a section of CHANGELOG."""
    lines = "".join(f"{it}\n" for it in new)
    return f"### What is new for you, as a user\n\n{lines}\n{first}\n{more}"


@catches("tools/lib/pages/changes.py", "if not found:", "if not text:")
@pytest.mark.parametrize("text,count", [
    (a_section(), 0),
    (a_section(new=[f"{at}. New." for at in range(1, 6)]), 0),
    (a_section(new=[f"{at}. New." for at in range(1, 7)]), 1),
    (a_section(new=()), 1),
    (a_section(first=""), 1),
    ("- New.\n", 1),
    (a_section(more="word " * 1_479), 0),
    (a_section(more="word " * 1_480), 1),
], ids=["one line", "five lines", "six lines", "nothing for a user", "nothing for an operator", "a list",
        "1,500 words", "1,501 words"])
def test_a_section_of_changes_begins_with_what_its_readers_do_and_is_short(text, count):
    assert len(list(changes.faults("9.8.7", text))) == count
