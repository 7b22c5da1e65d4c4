"""The table of OPERATING of what can go wrong, and the tests that raise each of its rows."""
from __future__ import annotations

import ast
import glob
import os
from typing import Iterator

from pages.files import read
from top import TOP

PAGE, HEAD = "docs/operators/OPERATING.md", "| What goes wrong | Reported by | Within | Do |"
# what nobody on the machine can tell, with why in the cell
NOBODY, MOST_NOBODY = "nobody here: ", 2


def rows(text: str) -> list[list[str]]:
    """The cells of each row of the table."""
    table = text.partition(f"{HEAD}\n")[2].partition("\n\n")[0].splitlines()[1:]
    return [[cell.strip() for cell in line.strip("|").split("|")] for line in table]


def marks(text: str) -> Iterator[str]:
    """The conditions that the marks of a file name, each of which is the begin of a row."""
    for it in ast.walk(ast.parse(text)):
        if isinstance(it, ast.FunctionDef):
            for mark in it.decorator_list:
                if isinstance(mark, ast.Call) and ast.unparse(mark.func) == "pytest.mark.told":
                    yield from (word.value for word in mark.args if isinstance(word, ast.Constant))


def raised() -> set[str]:
    """The conditions that tests raise."""
    found: set[str] = set()
    for path in glob.glob(f"{TOP}/tests/**/test_*.py", recursive=True):
        text = read(os.path.relpath(path, TOP))
        if "mark.told(" in text:
            found.update(marks(text))
    return found


def faults() -> list[str]:
    """What is wrong with the table: rows that no test raises, marks of no row, and rows that nobody reports."""
    known, seen = rows(read(PAGE)), raised()
    conditions = [row[0] for row in known if not row[1].startswith(NOBODY)]
    wrong = [f"it has no row {it!r}" for it in sorted(seen) if sum(row[0].startswith(it) for row in known) != 1]
    wrong += [f"no test raises {it!r}" for it in conditions if not any(it.startswith(mark) for mark in seen)]
    wrong += [f"a row of {len(row)} cells: {row[0]!r}" for row in known if len(row) != 4 or not all(row)]
    if len(known) - len(conditions) > MOST_NOBODY:
        wrong.append(f"nobody reports {len(known) - len(conditions)} of its rows")
    return wrong if known else ["it is not there"]

