"""Mutants of server/ and indexctl/, and whether tests see them: first the unit tests of the room, and if these let one
through, the tests that are known to see what is wrong in its file, by its breaks."""
from __future__ import annotations

import ast
import concurrent.futures
import functools
import glob
import json
import math
import os
import random
import re
import shutil
import tempfile
import threading
from collections import Counter
from collections.abc import Iterator
from dataclasses import dataclass, field

from support.breaks import all_breaks
from support.inner_runs import Ended, copy_rooms, run_tests
from support.places import TOP
from support.python_mutants import Mutant, drawn, mutants_of

EQUIVALENT = f"{TOP}/tests/mutants/equivalent.json"
# of those that are another program, so many parts of a hundred are caught
WANTED = 0.85
# by chance fewer are caught of a few mutants: in one run of so many of a room that catches just what is wanted
BY_CHANCE = 1_000
# how long the unit tests may take on one mutant, the others of its file, and one test of these
SECONDS_OF_UNITS, SECONDS_OF_ROOM, SECONDS_OF_TEST = 300, 300, 90
# the bytes that a process of theirs may have: a mutant may count what it reads wrongly, and read without an end
MEMORY = 4 << 30
# the rooms, and how many of the files of their tests are run for a file that no break changes
ROOMS = {"server": "tests/server", "indexctl": "tests/indexctl"}
FILES_OF_ROOM = 4
# what is only run by `tools/package`, whose tests build the package
LEFT_OUT = ("indexctl/build.py",)


def python_files() -> dict[str, str]:
    """The text of each Python program and module of the rooms, by its path."""
    found = {}
    for path in sorted(glob.glob(f"{TOP}/server/bin/*") + glob.glob(f"{TOP}/server/lib/**/*.py", recursive=True)
                       + glob.glob(f"{TOP}/indexctl/**/*.py", recursive=True)):
        with open(path, encoding="utf-8") as kept:
            text = kept.read()
        file = os.path.relpath(path, TOP)
        if file not in LEFT_OUT and (file.endswith(".py") or text.partition("\n")[0].endswith("python3")):
            found[file] = text
    return found


def equivalents() -> dict[tuple[str, str, str, str], str]:
    """Why mutants that were read are the same program, by what stays the same if lines move."""
    with open(EQUIVALENT, encoding="utf-8") as kept:
        return {(it["file"], it["function"], it["old"], it["new"]): it["why"] for it in json.load(kept)}


def seen_by_file() -> dict[str, list[str]]:
    """By a file of the rooms, the test files that see a break of it, those that see most of them first."""
    seen: dict[str, Counter[str]] = {}
    for it in all_breaks():
        for path in {path for path, *_ in it.changes}:
            seen.setdefault(path, Counter()).update(name.partition("::")[0] for name in it.caught)
    return {path: [name for name, _ in counts.most_common() if os.path.exists(f"{TOP}/{name}")]
            for path, counts in seen.items()}


def units_of(file: str) -> list[str]:
    """The unit tests of the room of a file, and of the other if the file is one that they share. A program is run by
    those alone that name it, or the folder of all."""
    rooms = ROOMS.values() if file.startswith("server/lib/") else [ROOMS[file.partition("/")[0]]]
    found = by_name([it for room in rooms for it in glob.glob(f"{TOP}/{room}/test_unit_*.py")], file)
    names = {os.path.basename(file), "BIN"}
    return [it for it in found if not file.startswith("server/bin/") or names & words_in(it).keys()]


def others_of(file: str, table: dict[str, list[str]]) -> list[str]:
    """The other tests of a file: by the breaks, or else some of its room."""
    def is_other(test: str) -> bool:
        return not os.path.basename(test).startswith("test_unit_")

    of_room = filter(is_other, glob.glob(f"{TOP}/{ROOMS[file.partition('/')[0]]}/test_*.py"))
    return [*filter(is_other, table.get(file, []))] or by_name([*of_room], file)[:FILES_OF_ROOM]


def by_name(tests: list[str], file: str) -> list[str]:
    """These test files, first the one that has the name of a file, then those that name it most often."""
    name = os.path.basename(file).removesuffix(".py")
    return sorted((os.path.relpath(it, TOP) for it in tests),
                  key=lambda it: (not it.endswith(f"_{name.removeprefix('index-')}.py"), -words_in(it)[name], it))


@functools.cache
def words_in(test: str) -> Counter[str]:
    """How often each word stands in a test file."""
    with open(f"{TOP}/{test}", encoding="utf-8") as kept:
        return Counter(re.findall(r"[\w-]+", kept.read()))


@dataclass
class Result:
    """What became of a mutant: the test that caught it, or none."""
    mutant: Mutant
    caught_by: str = ""
    why_equivalent: str = ""

    def __str__(self) -> str:
        if self.why_equivalent:
            return f"the same program: {self.mutant}"
        return f"caught by {self.caught_by}: {self.mutant}" if self.caught_by else f"SURVIVED: {self.mutant}"


@dataclass
class MutantRuns:
    """Runs tests on mutants, one after the other in each of some copies."""
    program: str
    until: float = math.inf
    table: dict[str, list[str]] = field(default_factory=seen_by_file)
    same: dict[tuple[str, str, str, str], str] = field(default_factory=equivalents)
    known: dict[str, concurrent.futures.Future[bool]] = field(default_factory=dict)
    lock: threading.Lock = field(default_factory=threading.Lock)
    copies: threading.local = field(default_factory=threading.local)

    def all(self, mutants: list[Mutant], jobs: int, clock) -> Iterator[Result]:
        """What becomes of each of these, as it comes, until the time is over."""
        with tempfile.TemporaryDirectory() as folder, concurrent.futures.ThreadPoolExecutor(jobs) as pool:
            os.chmod(folder, 0o755)
            self.folder = folder
            yield from filter(None, pool.map(lambda it: self.one(it) if clock() < self.until else None, mutants))

    def copy(self) -> str:
        """The copy of this thread."""
        if not hasattr(self.copies, "path"):
            self.copies.path = copy_rooms(f"{self.folder}/{threading.get_ident()}")
        return str(self.copies.path)

    def one(self, mutant: Mutant) -> Result:
        why = self.same.get(mutant.key, "")
        if why:
            return Result(mutant, why_equivalent=why)
        copy, path = self.copy(), f"{self.copy()}/{mutant.file}"
        for tests, seconds in ((units_of(mutant.file), SECONDS_OF_UNITS),
                               (others_of(mutant.file, self.table), SECONDS_OF_ROOM)):
            with open(path, "w", encoding="utf-8") as made:
                made.write(mutant.source)
            found = self.caught(copy, tests, seconds) if tests else ""
            shutil.copyfile(f"{TOP}/{mutant.file}", path)
            if found and self.passes_as_it_is(copy, found, seconds):
                return Result(mutant, found)
        return Result(mutant)

    def caught(self, copy: str, tests: list[str], seconds: float) -> str:
        """The test that catches what is in the copy: it fails again by itself, so not by chance."""
        found = caught_by(self.run(copy, tests, seconds))
        if "::" in found and self.run(copy, [function_of(found)], seconds).status == 0:
            return ""
        return found

    def run(self, copy: str, tests: list[str], seconds: float) -> Ended:
        return run_tests(copy, tests, "-x", "--program", self.program, "--timeout", str(SECONDS_OF_TEST),
                         seconds=seconds, memory=MEMORY)

    def passes_as_it_is(self, copy: str, test: str, seconds: float) -> bool:
        """Whether this test passes where nothing is wrong: else it would catch anything. It is looked at once."""
        with self.lock:
            is_known = test in self.known
            one = self.known.setdefault(test, concurrent.futures.Future())
        if not is_known:
            one.set_result("::" not in test or self.run(copy, [function_of(test)], seconds).status == 0)
        return one.result()


def function_of(test: str) -> str:
    """A test without its parameters: pytest prints a `//` in these as one `/`, and does not find it again."""
    return test.partition("[")[0]


def caught_by(ended: Ended) -> str:
    """The test that failed, or the file that can't be imported; or none. All of them may take too long on a busy
    machine, and name none: a test that hangs fails by its own limit. A mutant may end pytest itself, by a signal or
    since conftest.py can't be imported, and no test is named then either."""
    named = sorted([*ended.failed, *ended.errors])
    return named[0] if ended.status in (1, 2) and named else ""


def draw(count: int, seed: object) -> list[Mutant]:
    """So many mutants of all files, the same for one seed and the same texts."""
    texts = python_files()
    every = [it for file, text in texts.items() for it in mutants_of(file, text)]
    return drawn(every, texts, count, random.Random(str(seed)))


def least_caught(count: int) -> int:
    """How many of so many have to be caught: of few mutants fewer, so that a room that catches what is wanted does not
    fail by chance."""
    if count >= 200:
        return math.ceil(WANTED * count)
    below = 0.0
    for least in range(count + 1):
        below += math.comb(count, least) * WANTED ** least * (1 - WANTED) ** (count - least)
        if below > 1 / BY_CHANCE:
            return least
    return count


def functions_of(text: str) -> set[str]:
    """The names of functions and methods of a text, as mutants have them."""
    found = {""}

    def walk(node: ast.AST, name: str) -> None:
        for it in ast.iter_child_nodes(node):
            is_named = isinstance(it, (ast.FunctionDef, ast.AsyncFunctionDef, ast.ClassDef))
            inner = f"{name}.{it.name}".lstrip(".") if is_named else name
            found.add(inner)
            walk(it, inner)

    walk(ast.parse(text), "")
    return found
