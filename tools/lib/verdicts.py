"""What the prover said of a wrong body, or of a harmless change of the same shape."""
from __future__ import annotations

import os
import re
from typing import Any

from texts import read

# how the prover says that a file is no function's proof, and that one names what is not there
UNREAD = re.compile(r"^\./(proofs/\S+/Proof\.antt): error: rattle does not read this file", re.M)
STALE = re.compile("has no field|has no `|is not in scope|can be named from here")
TAKEN_AWAY = " (its answer names what the edit took away)"
# how it says that the code does not compile
UNCOMPILED = re.compile(r"^(?:\./)?(src/\S+:\d+:\d+: error(?:\[[\w-]+\])?: .*)$", re.M)


def line_of(crate: Any, function: str, said: str) -> re.Match[str] | None:
    """Returns the match of the line in which the prover tells a function's outcome, or None."""
    return re.search(rf"^fn {crate.name}::{re.escape(function)}: (.*)$", said, re.M)


def open_goals(crate: Any, function: str, said: str) -> list[str] | None:
    """Returns the goals of the function's own that stay open, as a list, empty where there are none, as where only a
    function that it calls is not proved, and None where the prover did not judge it. Of an answer to a goal, in the
    function's proof files, it tells where that names what the edit took away."""
    found = line_of(crate, function, said)
    if not found:
        return None
    if not re.match("not proved|no proof", found[1]):
        return []
    search = re.search("`search` did not prove (.*?)(;|$)", found[1])
    names = re.findall("`([^`]+)`", search[1]) if search else []
    # where an answer of the function is refused, the open goals stand above its line, below that of another
    above = said[: found.start()].rpartition("\nfn ")[2]
    names += re.findall(r"^note: (?:\./)?src/\S+:\d+:\d+: .*\(`([^`]+)`\)", above, re.M)
    proofs = rf"proofs/{re.escape(function.replace('::', '/'))}/\w+\.antt"
    for name, why in re.findall(rf"^(?:\./)?{proofs}:\d+:\d+: error: `([^`]+)`: (.*)$", said, re.M):
        is_no_goal = name == "unasked" or re.match(rf"`goal\.{re.escape(name)}`: .*has no `{re.escape(name)}`", why)
        if name not in names and not is_no_goal:
            names.append(f"{name}{TAKEN_AWAY if STALE.search(why) else ''}")
    return list(dict.fromkeys(names))


def unjudged(function: str, said: str) -> str | None:
    """Returns why the prover could not judge a function of which no goal is open, or None where it could."""
    found = UNCOMPILED.search(said)
    if found:
        return f"it does not compile: {found[1]}"
    proofs = rf"proofs/{re.escape(function.replace('::', '/'))}/\w+\.antt"
    gone = re.findall(rf"^(?:\./)?{proofs}:\d+:\d+: error: `([^`]+)`: `goal\.\1`: .*has no `\1`", said, re.M)
    if gone:
        return f"nothing was judged, since the edit took these goals away: {', '.join(dict.fromkeys(gone))}"
    errors = re.findall(rf"^(?:\./)?({proofs}:\d+:\d+: error: .*)$", said, re.M)
    return f"nothing was judged: {errors[0]}" if errors else None


def is_proved(crate: Any, function: str, said: str) -> bool:
    """Returns whether the prover was asked for the function and has no goal of its own open. One that calls others
    with holes stands on these, and is told so."""
    found = line_of(crate, function, said)
    if not found:
        return bool(re.search(r"^only=(\d+) proved=\1$", said, re.M))
    return bool(re.match("proved|no holes|depends on a hole", found[1])) and not unjudged(function, said)


def exit_of(name: str) -> tuple[str | None, str]:
    """Returns a goal's exit, and the rest of its name, which tells what has to hold there."""
    found = re.match(r"(returns\S*?)(-clause-\S+)?$", name)
    return (found[1], found[2] or "") if found else (None, name)


def answers_of(folder: str, function: str) -> list[str]:
    """Returns the names of the goals that the crate's own proof files answer for a function."""
    file = f"{folder}/proofs/{function.replace('::', '/')}/Answers.antt"
    if not os.path.exists(file):
        return []
    return re.findall(r"^pub (\S+) :", read(file), re.M)


def is_weak(goals: list[str], answers: list[str]) -> bool:
    """Returns whether a refusal by these open goals may say little of the contract: each of them has an answer by
    hand, which may name what the edit took away or not fit its form, or is what such an answer is for at another
    exit."""
    answered = {exit_of(it)[1] for it in answers if exit_of(it)[0]}
    return all(it.endswith(TAKEN_AWAY) or it in answers or exit_of(it)[0] is not None and exit_of(it)[1] in answered
               for it in goals)
