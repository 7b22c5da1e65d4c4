"""Why tests may be skipped in the gate: the lines of tests/skips.txt, and what the tests themselves say."""
from __future__ import annotations

import ast
import os
from collections.abc import Iterator
from fnmatch import fnmatchcase

from top import TOP

SKIPS = "tests/skips.txt"
# what says that a package is missing: in the gate the test fails there
OF_PACKAGES = "tests/support/needed.py"


def rows() -> list[tuple[str, str]]:
    """Each line: a file, and a reason in which * stands for anything."""
    with open(f"{TOP}/{SKIPS}", encoding="utf-8") as kept:
        parts = [line.strip().partition(": ") for line in kept if line.strip() and line[0] != "#"]
    return [(file, reason) for file, _, reason in parts]


def may_be_skipped(path: str, reason: str) -> bool:
    """Whether the gate may leave out a test for this reason, which this file says, or a conftest.py above it: of a
    fixture that skips a test, pytest names the test's file."""
    place = os.path.relpath(path, TOP)
    return any((place == file or is_conftest_above(file, place)) and fnmatchcase(reason, known)
               for file, known in rows())


def is_conftest_above(file: str, place: str) -> bool:
    folder, name = os.path.split(file)
    return name == "conftest.py" and place.startswith(f"{folder}/")


def text_of(node: ast.AST | None) -> str | None:
    """A text with * for what is put into it; None for another expression."""
    if isinstance(node, ast.JoinedStr):
        return "".join(str(it.value) if isinstance(it, ast.Constant) else "*" for it in node.values)
    return str(node.value) if isinstance(node, ast.Constant) else None


def skips(tree: ast.AST) -> Iterator[tuple[int, str | None]]:
    """The line and the reason of each call that skips a test; None for a reason that is made as the test runs."""
    for node in ast.walk(tree):
        if isinstance(node, ast.Call) and ast.unparse(node.func).startswith("pytest."):
            name = ast.unparse(node.func).rpartition(".")[2]
            if name in ("skip", "skipif", "importorskip"):
                named = {it.arg: it.value for it in node.keywords}
                given = node.args[0] if name == "skip" and node.args else None
                yield node.lineno, text_of(named.get("reason", named.get("msg", given)))


def unknown_skips(path: str, tree: ast.AST) -> list[str]:
    """What a file of tests says that tests/skips.txt does not have."""
    known = [reason for file, reason in rows() if file == path]
    if path == OF_PACKAGES:
        return []
    return [f"line {line}: {path}: {reason or 'REASON'}" for line, reason in skips(tree)
            if not any(not reason or fnmatchcase(reason, it) or fnmatchcase(it, reason) for it in known)]


def idle_rows(trees: dict[str, ast.AST]) -> list[str]:
    """The lines of tests/skips.txt whose file is not there or skips no test."""
    return sorted({file for file, _ in rows() if file not in trees or not any(skips(trees[file]))})
