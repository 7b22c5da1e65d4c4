"""Breaks of server/, indexctl/ and the texts beside them: what is wrong is made in a copy, and which test fails there.

One of Python stands above the first test that fails there, as support/planted.py says: `@catches(FILE, OLD, NEW)`.
Another is a block of lines in a file of tests/mutants, with an empty line behind it:

    name: A_NAME
    caught: tests/server/test_backups.py::test_a_backup_that_fills_the_disk_leaves_nothing
    file: server/bin/index-backup
    old: a text that stands once in that file
    new: what stands there in the copy

It has at least one test at `caught`, each of which has to fail, and any number of `file`, each with any number of `old`
and `new`. `program: SCRIPT` puts a shell script in front of the program, in which $index is the program, and `alter:
PATTERN => TEXT` has the pages altered on their way from the index (the option --alter of the tests)."""
from __future__ import annotations

import ast
import builtins
import functools
import glob
import inspect
import os
import re
import symtable
from collections.abc import Iterator
from dataclasses import dataclass, field

from support.inner_runs import Ended, copy_rooms, run_tests
from support.places import TOP
from support.planted import catches

MUTANTS, GIVEN = f"{TOP}/tests/mutants", inspect.signature(catches)


class NotMade(Exception):
    """Why a break can't be made."""


@dataclass
class Break:
    """One break: where it stands, its lines, and what is changed."""
    source: str
    name: str
    caught: list[str] = field(default_factory=list)
    # of each, the file, the old text and the new one
    changes: list[tuple[str, str, str]] = field(default_factory=list)
    program: str = ""
    alter: str = ""
    fault: str = ""

    @property
    def room(self) -> str:
        return re.split(r"[./]", self.source)[0]

    def texts(self) -> dict[str, str]:
        """The files that it changes, by their paths, as it makes them."""
        if self.fault:
            raise NotMade(self.fault)
        if not self.changes and not self.program and not self.alter:
            raise NotMade("it changes nothing")
        made: dict[str, str] = {}
        for path, old, new in self.changes:
            if path not in made:
                with open(f"{TOP}/{path}", encoding="utf-8") as kept:
                    made[path] = kept.read()
            if made[path].count(old) != 1:
                raise NotMade(f"{old!r} stands {made[path].count(old)} times in {path}")
            made[path] = made[path].replace(old, new)
        return made

    def loose_names(self) -> set[str]:
        """Those that its Python files read since it was made, and that nothing makes: what fails then fails by them."""
        found: set[str] = set()
        for path, text in self.texts().items() if self.changes else ():
            with open(f"{TOP}/{path}", encoding="utf-8") as kept:
                before = kept.read()
            if path.endswith(".py") or "python3" in before.partition("\n")[0]:
                found |= loose_names(text) - loose_names(before)
        return found

    def unknown_tests(self) -> list[str]:
        """Those at `caught` that no file has."""
        return [name for name in self.caught if not has_test(name)]

    def make(self, copy: str, program: str) -> str:
        """Makes it in a new copy, and returns the program that is tried there."""
        copy_rooms(copy)
        for path, text in self.texts().items():
            with open(f"{copy}/{path}", "w", encoding="utf-8") as made:
                made.write(text)
        if not self.program:
            return program
        with open(f"{copy}/index", "w", encoding="utf-8") as script:
            script.write(f"#!/bin/sh\nindex='{program}'\n{self.program}\n")
        os.chmod(f"{copy}/index", 0o755)
        return script.name

    def tried(self, folder: str, program: str, seconds: float) -> Ended:
        """How its tests end in a copy in this folder."""
        made = self.make(f"{folder}/copy", program)
        words = ["--alter", self.alter] if self.alter else []
        # what it names is run also where the gate takes turns
        words += ["--walks", "--machine"]
        # of one test the first failure is enough
        words += ["-x"] if len(self.caught) == 1 else []
        return run_tests(f"{folder}/copy", self.caught, "--program", made, *words, seconds=seconds)


def tables_of(table: symtable.SymbolTable) -> Iterator[symtable.SymbolTable]:
    """The table of a text, and those of the functions and classes in it."""
    yield table
    for it in table.get_children():
        yield from tables_of(it)


def loose_names(text: str) -> set[str]:
    """The names that a Python text reads, and that neither it nor Python makes."""
    top = symtable.symtable(text, "text", "exec")
    symbols = [(it, each) for it in tables_of(top) for each in it.get_symbols()]
    made = {each.get_name() for it, each in symbols if (it is top or each.is_declared_global())
            and (each.is_assigned() or each.is_imported())}
    read = {each.get_name() for _, each in symbols if each.is_global() and each.is_referenced()}
    return read - made - {*dir(builtins)}


def text_of(path: str) -> str:
    with open(f"{TOP}/{path}", encoding="utf-8") as kept:
        return kept.read()


@functools.cache
def tests_of(path: str) -> dict[str, tuple[str, ...]]:
    """The tests of a file by their names: of a class, the names of its methods."""
    try:
        tree = ast.parse(text_of(path))
    except OSError:
        return {}
    found: dict[str, tuple[str, ...]] = {}
    for it in tree.body:
        if isinstance(it, ast.FunctionDef):
            found[it.name] = ()
        elif isinstance(it, ast.ClassDef):
            found[it.name] = tuple(each.name for each in it.body if isinstance(each, ast.FunctionDef))
    return found


def statements(node: ast.AST) -> Iterator[ast.AST]:
    """A node and the statements in it: without what these are made of, which is most of a tree."""
    yield node
    for inner in ("body", "orelse", "handlers", "finalbody", "cases"):
        for it in getattr(node, inner, ()):
            yield from statements(it)


def breaks_above(path: str, tree: ast.Module) -> Iterator[Break]:
    """The breaks above the tests of a file, each with the name of its file and its test, and a number if there are
    several. One that stands above something else fails by its own name."""
    methods = [(f"{it.name}::", it.body) for it in tree.body if isinstance(it, ast.ClassDef)]
    tests: dict[ast.AST, str] = {
        each: f"{inside}{each.name}" for inside, body in [("", tree.body), *methods] for each in body
        if isinstance(each, ast.FunctionDef) and each.name.startswith("test")}
    file = os.path.basename(path).removesuffix(".py")
    for it in statements(tree):
        calls = [each for each in getattr(it, "decorator_list", ()) if isinstance(each, ast.Call)
                 and ast.unparse(each.func) == catches.__name__]
        name = f"{file}-{tests.get(it, getattr(it, 'name', ''))}".replace("::", "-")
        for number, call in enumerate(calls, 1):
            found = Break(os.path.relpath(path, "tests"), f"{name}-{number}" if len(calls) > 1 else name)
            if it in tests:
                read_call(found, path, tests[it], call)
            else:
                found.fault = "it stands above no test"
            yield found


def read_call(found: Break, path: str, test: str, call: ast.Call) -> None:
    """Reads a break from what is given to `catches` above a test."""
    try:
        words = {str(it.arg): ast.literal_eval(it.value) for it in call.keywords}
        given = GIVEN.bind(*map(ast.literal_eval, call.args), **words).arguments
    except (TypeError, ValueError) as error:
        found.fault = f"support/planted.py says what is given to it, in literals: {error}"
        return
    found.changes = [(given["file"], given["old"], given["new"]), *given.get("more", ())]
    names = [f"{test}[{given['case']}]" if "case" in given else test, *given.get("also", ())]
    found.caught = [f"tests/{it}" if ".py::" in it.partition("[")[0] else f"{path}::{it}" for it in names]


def names_of(path: str) -> list[str]:
    """The names of the tests of a file, as `caught` has them."""
    return [f"{path}::{name}" for name in tests_of(path) if name.startswith("test")] + [
        f"{path}::{name}::{each}" for name, methods in tests_of(path).items() for each in methods
        if each.startswith("test")]


def has_test(name: str) -> bool:
    """Whether a file has a test of this name, whose parameters are not looked at."""
    path, *inside = name.partition("[")[0].split("::")
    tests = tests_of(path)
    return len(inside) in (1, 2) and inside[0] in tests and all(it in tests[inside[0]] for it in inside[1:])


def read(source: str, number: int, block: str) -> Break:
    """The break of a block of lines. One that can't be read fails by its own name, and hides no other."""
    found = Break(source, f"{source}_{number}")
    path = old = ""
    for line in block.splitlines():
        key, colon, value = line.partition(":")
        value = value.removeprefix(" ")
        if key == "file":
            path = value
        elif key == "old":
            old = value
        elif key == "new" and path and old:
            found.changes.append((path, old, value))
            old = ""
        elif key == "caught":
            found.caught.append(value)
        elif colon and key in ("name", "program", "alter"):
            setattr(found, key, value)
        else:
            found.fault = f"nobody knows what this line is: {line}"
    return found


@functools.cache
def all_breaks() -> list[Break]:
    """The breaks above all tests, and those of all files of tests/mutants, in the order of their names."""
    found = []
    for file in sorted(glob.glob(f"{MUTANTS}/**/*.edits", recursive=True)):
        with open(file, encoding="utf-8") as kept:
            text = re.sub(r"^#.*\n", "", kept.read(), flags=re.M)
        blocks = re.split(r"\n{2,}", text.strip())
        found += [read(os.path.relpath(file, MUTANTS), at, it) for at, it in enumerate(blocks, 1) if it]
    # (tests/out has what runs have left)
    for path in sorted({*glob.glob("tests/**/*.py", root_dir=TOP, recursive=True)}
                       - {*glob.glob("tests/out/**/*.py", root_dir=TOP, recursive=True)}):
        text = text_of(path)
        found += breaks_above(path, ast.parse(text)) if f"@{catches.__name__}(" in text else []
    return sorted(found, key=lambda it: (it.name, it.source))
