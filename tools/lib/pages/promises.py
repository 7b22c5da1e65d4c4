"""The calls and clauses that CLAUSES names in its tables, and whether the contracts of the code have them; the
definitions that RUNS names in its tables of steps, and whether they have their lines."""
from __future__ import annotations

import glob
import os
import re
from typing import Dict, Iterator, List, Tuple

from contracts import sources
from pages.files import read
from top import TOP

# by the name of a call, the text of each contract, and of its file
Contracts = Dict[str, List[Tuple[str, str]]]
# by the name of a definition, the text of each
Definitions = Dict[str, List[str]]

PAGE, SHORT, RUNS = "docs/proofs/CLAUSES.md", "docs/proofs/PROMISES.md", "docs/proofs/RUNS.md"
PROMISES = re.compile(r"^\| Promise \| Call \| Clause \|(?: Wrong body \| Test \|)?\n\|.*\n((?:\|.*\n)*)", re.M)
STEPS = re.compile(r"^\| Step \| Definition \| Lines \|\n\|.*\n((?:\|.*\n)*)", re.M)
# a definition up to the next line that is empty
DEFINITION = re.compile(r"^(?:pub record|(?:abbrev|unfoldable) pub) (\w+)\b.*\n(?:.+\n)*", re.M)
WORD = re.compile(r"\w+")
# a function up to its body, and all of a trait or a struct
FUNCTION = re.compile(r"^ *(?:pub(?:\(crate\))? )?fn (\w+).*?(?:\{|;|\{\})$", re.S | re.M)
TYPE = re.compile(r"^(?:pub )?(?:struct|trait) (\w+).*?^\}", re.S | re.M)


def contracts() -> Contracts:
    """The functions of the crates up to their bodies, their traits and structs, by name, each with the text of its
    file."""
    found: Contracts = {}
    for path, text in sources(TOP):
        for match in (*FUNCTION.finditer(text), *TYPE.finditer(text)):
            found.setdefault(match[1], []).append((match[0], f"//{os.path.basename(path)}\n{text}"))
    return found


def has_clause(contract: str, clause: str, known: Definitions) -> bool:
    """Whether a contract says this word, or cites a record that has such a line."""
    cited = (text for name in set(WORD.findall(contract)) for text in known.get(name, []))
    return bool(re.search(rf"\b{clause}\b", contract)) or any(f"\n  pub {clause} :" in text for text in cited)


def lacks(call: str, clauses: list[str], found: Contracts, known: Definitions) -> bool:
    """Whether no contract of a call, as Desk::apply or laws::one_message, has all these words."""
    owner, _, name = call.rpartition("::")
    home = re.compile(rf"^//{owner}\.rt$|\b(impl|trait)\b[^{{\n]*\b{owner}\b" if owner else "", re.M)
    texts = [text for text, file in found.get(name, []) if home.search(file)]
    return not any(all(has_clause(text, clause, known) for clause in clauses) for text in texts)


def promises() -> Iterator[tuple[str, list[str]]]:
    """The calls in the tables of both pages, each with the clauses that stand beside it."""
    for table in PROMISES.findall(read(SHORT)) + PROMISES.findall(read(PAGE)):
        for row in table.splitlines():
            calls, clauses = (re.findall(r"`([^`]+)`", cell) for cell in row.split("|")[2:4])
            yield from ((call, clauses) for call in calls)


def definitions() -> Definitions:
    """The definitions in the specs of the crates, by name, each with its text."""
    found: Definitions = {}
    for path in glob.glob("crates/*/specs/**/*.antt", root_dir=TOP, recursive=True):
        for match in DEFINITION.finditer(read(path)):
            found.setdefault(match[1], []).append(match[0])
    return found


def steps() -> Iterator[tuple[list[str], list[str]]]:
    """The definitions in the tables of steps of the runs, each row's with the lines that stand beside them."""
    for table in STEPS.findall(read(RUNS)):
        for row in table.splitlines():
            names, lines = (re.findall(r"`([^`]+)`", cell) for cell in row.split("|")[2:4])
            yield names, lines


def has_lines(names: list[str], lines: list[str], found: Definitions) -> bool:
    """Whether each name is a definition, and one of them has all these lines."""
    texts = [text for name in names for text in found.get(name, [])]
    has_all = any(all(f"\n  pub {line} :" in text for line in lines) for text in texts)
    return has_all and all(name in found for name in names)
