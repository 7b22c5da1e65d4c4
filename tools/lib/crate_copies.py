"""Copies of a crate in which a check is asked for some of its functions."""
from __future__ import annotations

import os
import re
import shutil
from typing import Any, Collection

from edits import written_in
from texts import read, write

HOLE = """use Rattle.{crate}.proofs.{path}.Statement.{{statement}}

pub {name}_spec : {{M : Type 1}} → statement M
{name}_spec = ?
"""
# an answer to what is no goal, which the prover refuses
UNASKED = "\npub unasked : goal.unasked\nunasked = ?\n"


def functions_of(rt: Any, crate: Any) -> list[str]:
    """Returns the functions that stand in the crate's files."""
    code = [it for it in rt.rtlib.files_of(crate.folder) if it.endswith(".rt")]
    found = {path for it in code for path, _ in written_in(os.path.relpath(it, f"{crate.folder}/src"), read(it))}
    return sorted(found)


def make_copy(rt: Any, crate: Any, texts: dict[str, str], to: str) -> None:
    """Copies the crate's files, with these texts in place of its own."""
    for part in rt.rtlib.PARTS:
        if os.path.isdir(f"{crate.folder}/{part}"):
            shutil.copytree(f"{crate.folder}/{part}", f"{to}/{part}")
    for path, text in texts.items():
        write(f"{to}/{path}", text)


def make_holes(rt: Any, crate: Any, functions: Collection[str], to: str) -> None:
    """Gives each function of the copied crate but these a hole for a proof."""
    for path in functions_of(rt, crate):
        if path.replace(".", "::") in functions:
            continue
        at = f"{to}/proofs/{path.replace('.', '/')}"
        os.makedirs(at, exist_ok=True)
        for name in ("Answers.antt", "Invariants.antt"):
            if os.path.exists(f"{at}/{name}"):
                os.remove(f"{at}/{name}")
        write(f"{at}/Proof.antt", HOLE.format(crate=crate.name, path=path, name=path.rpartition(".")[2]))


def copy_proofs(crate: Any, function: str, copy: str, to: str) -> None:
    """Gives a copy of a function the proof files of the function."""
    was, now = (f"{to}/proofs/{it.replace('::', '/')}" for it in (function, copy))
    if function == copy or not os.path.isdir(was):
        return
    os.makedirs(now)
    whole = re.compile(rf"(Rattle\.{crate.name}\.proofs\.){re.escape(function.replace('::', '.'))}(?=\.)")
    for name in (it for it in os.listdir(was) if os.path.isfile(f"{was}/{it}")):
        write(f"{now}/{name}", whole.sub(rf"\1{copy.replace('::', '.')}", read(f"{was}/{name}")))


def answer_what_is_not_asked(crate: Any, function: str, to: str) -> None:
    """Gives a function an answer that the prover refuses. For one without it the prover runs once more, to print
    what to write for each goal that is open."""
    at = f"{to}/proofs/{function.replace('::', '/')}"
    if os.path.exists(f"{at}/Proof.antt"):
        return
    os.makedirs(at, exist_ok=True)
    file, goals = f"{at}/Answers.antt", f"use Rattle.{crate.name}.proofs.{function.replace('::', '.')}.Goals as goal\n"
    text = read(file) if os.path.exists(file) else goals
    write(file, text + UNASKED)
