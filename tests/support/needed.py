"""What tests need beside the program: commands of other packages. And which tests were left out, and why."""
from __future__ import annotations

import importlib
import importlib.util
import os
import re
import shutil
from types import ModuleType

import pytest

from support.set_up import BY_HAND, is_gate


def want_command(name: str, package: str) -> None:
    """Skips the test if this command is missing. In .ci/run, which installs it, the test fails."""
    if not shutil.which(name):
        tell_missing(name, package)


def want_file(path: str, package: str) -> None:
    """The same for a file."""
    if not os.path.exists(path):
        tell_missing(path, package)


# what a command of the repository asks for before it looks at its words
COMMANDS_OF = {"tools/package": (("dh", "debhelper"), ("help2man", "help2man")),
               "bench/bench-behind-nginx": (("nginx", "nginx-light"), ("openssl", "openssl"), ("wrk", "wrk"))}


def want_commands_of(line: str) -> None:
    """Skips the test if a command of the repository in this line lacks what it asks for first."""
    for command, wanted in COMMANDS_OF.items():
        if command in line:
            for name, package in wanted:
                want_command(name, package)


def want_module(name: str, package: str) -> ModuleType:
    """The same for a module of Python, which it returns."""
    if importlib.util.find_spec(name) is None:
        tell_missing(name, package)
    return importlib.import_module(name)


def tell_missing(name: str, package: str) -> None:
    """Ends the test, with the name of the package."""
    said = f"{name} is not installed: package {package} of Debian has it"
    if is_gate():
        pytest.fail(said, pytrace=False)
    pytest.skip(said, allow_module_level=True)


# so many reasons are printed one by one
REASONS = 12


def reason_of(longrepr: tuple[str, int, str]) -> str:
    """Why a test was skipped, as its report has it."""
    return longrepr[2].removeprefix("Skipped: ")


def package_of(reason: str) -> str:
    """The package for want of which a test was skipped; nothing if there is another reason."""
    found = re.search(r"is not installed: package (\S+) of Debian has it$", reason)
    return found[1] if found else ""


def left_out(reasons: dict[str, int]) -> str:
    """Says how many tests were not run, why, and how to get what they need."""
    packages: dict[str, int] = {}
    others: dict[str, int] = {}
    for reason, count in sorted(reasons.items(), key=lambda it: -it[1]):
        counts, name = (packages, package_of(reason)) if package_of(reason) else (others, reason)
        counts[name] = counts.get(name, 0) + count
    lines = [f"NOT RUN: {sum(reasons.values())} tests"]
    if packages:
        names = ", ".join(f"{name} ({count})" for name, count in packages.items())
        lines += [f"{sum(packages.values())} for want of {names}: get these by", f"  {BY_HAND} {' '.join(packages)}"]
    lines += [f"{count}: {reason}" for reason, count in [*others.items()][:REASONS]]
    if len(others) > REASONS:
        lines.append(f"and for {len(others) - REASONS} other reasons, which pytest -rs prints")
    return "\n  ".join(lines)
