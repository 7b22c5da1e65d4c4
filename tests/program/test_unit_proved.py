"""What an earlier run proved is left out of the gate, if it is asked to, only while the same files are there."""
from __future__ import annotations

import os

import pytest
from support import proved
from support.places import TOP
from support.planted import catches
from support.programs import program_of
from support.running import write_below

# in the place of the kit's command, which tells its version
KIT = "#!/bin/sh\necho kit one\n"
PASSES, FAILS = ["sh", "-c", "echo 3 passed, 0 failed"], ["sh", "-c", "echo 2 passed, 1 failed; exit 1"]


@pytest.fixture
def tree(monkeypatch, tmp_path):
    """A repository of two files, with the program that was proved, and what is kept of it."""
    for path, text in (("crates/a/src/lib.rt", "one"), ("crates/b/src/lib.rt", "two"), ("crates.txt", "a:\nb: a\n"),
                       ("crates/a/out/index", "program"), ("bin/rt", KIT)):
        write_below(tmp_path, path, text)
    (tmp_path / "bin/rt").chmod(0o755)
    monkeypatch.setenv("PATH", f"{tmp_path}/bin:{os.environ['PATH']}")
    for name, value in (("TOP", str(tmp_path)), ("PROGRAM", f"{tmp_path}/crates/a/out/index"),
                        ("FOLDER", tmp_path / "kept"), ("PROVED", tmp_path / "kept/proved.json")):
        monkeypatch.setattr(proved, name, value)
    return tmp_path


def is_left_out(words):
    """Whether the gate leaves this part out."""
    part = program_of(f"{TOP}/tests/run").Part("proofs", words, "", ("crates", "crates.txt"))
    part.leave_out_if_kept()
    assert bool(part.words) == bool(part.status) and not part.failed
    return not part.words


def run(words):
    program_of(f"{TOP}/tests/run").Part("proofs", words, "", ("crates", "crates.txt")).run(shows=False)


@catches("tests/run", "if self.of and proved.is_kept(self.words, proved.sum_of(self.of)):", "if False:")
@catches("tests/support/proved.py", "folders[:] = sorted({*folders} - {*MADE})", "pass")
def test_what_passed_is_left_out_while_its_files_are_the_same(tree):
    assert not is_left_out(PASSES)
    run(PASSES)
    # what is made of sources is none of them
    write_below(tree, "crates/b/out/rlib/stamp", "made")
    assert is_left_out(PASSES) and not is_left_out([*PASSES, "others"])


@pytest.mark.parametrize("path, text", [
    ("crates/b/src/lib.rt", "three"), ("crates/b/src/new.rt", ""), ("crates.txt", "a:\n"),
    ("crates/a/out/index", "another"), ("bin/rt", KIT.replace("one", "two")), ("kept/proved.json", "{")])
def test_what_changed_is_proved_again(tree, path, text):
    run(PASSES)
    write_below(tree, path, text)
    assert not is_left_out(PASSES)


@catches("tests/support/proved.py", " and bool(sum_of_program())", "")
def test_without_its_program_it_is_proved_again(tree):
    (tree / "crates/a/out/index").unlink()
    run(PASSES)
    assert not is_left_out(PASSES)


@catches("tests/support/proved.py", "\\0{path}\\0", "\\0")
def test_a_file_that_moved_is_another(tree):
    run(PASSES)
    (tree / "crates/a/src/lib.rt").rename(tree / "crates/a/src/main.rt")
    assert not is_left_out(PASSES)


@catches("tests/run", "not self.failed and proved.sum_of(self.of) == self.sum", "proved.sum_of(self.of) == self.sum")
def test_what_failed_is_not_kept_and_no_more_what_passed_before(tree):
    run(FAILS)
    assert not is_left_out(FAILS)
    swaps = ["sh", "-c", f"cat {tree}/said; test ! -e {tree}/fails"]
    write_below(tree, "said", "3 passed, 0 failed\n")
    run(swaps)
    assert is_left_out(swaps)
    write_below(tree, "fails", "")
    run(swaps)
    assert not is_left_out(swaps)


@catches("tests/run", "not self.failed and proved.sum_of(self.of) == self.sum", "not self.failed")
def test_a_file_that_changes_meanwhile_keeps_nothing(tree):
    """Also if it is as it was before when it is looked at again."""
    words = ["sh", "-c", f"echo three > {tree}/crates/b/src/lib.rt; echo 3 passed, 0 failed"]
    run(words)
    write_below(tree, "crates/b/src/lib.rt", "two")
    assert not is_left_out(words)
