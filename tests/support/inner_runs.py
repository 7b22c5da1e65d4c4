"""Tests that run tests: copies of the rooms in which something is wrong, and what failed there."""
from __future__ import annotations

import glob
import os
import re
import shutil
import signal
import subprocess
import sys
from collections.abc import Iterable
from dataclasses import dataclass

from support.places import TOP

# what the tests read of the repository, without what was built
ROOMS = ("server", "indexctl", "tests", "tools", "docs", "bench", "crates/index_request_tests/src/tests")
FILES = ("LICENSE", "crates.txt", "CHANGELOG.md", "README.md", ".ci/run", "crates/index_args/src/command.rt",
         "crates/index/src/serving.rt", "crates/index/stdin", "crates/index/stdout",
         "crates/index_rules/src/decision/files.rt", "crates/index_sql_schema/src/table_texts.rt")
# for the fixtures of a run that is interrupted, to end what they started
SECONDS_TO_END = 30
SKIPPED = re.compile(r"^SKIPPED \[\d+\] \S+: (.*)$", re.M)


@dataclass(frozen=True)
class Ended:
    """How a run of tests ended: the status of pytest (1 if tests failed), the names of those that failed and of those
    that could not be run, and what it printed."""
    status: int
    failed: frozenset[str]
    errors: frozenset[str]
    said: str

    def has_failed(self, name: str) -> bool:
        """Whether this test failed, or this test with some of its parameters."""
        return any(it == name or it.startswith((f"{name}[", f"{name}::")) for it in self.failed)

    @property
    def why_skipped(self) -> str:
        """Why all tests were skipped, such as for a command that this machine lacks; or nothing."""
        is_skipped = self.status == 0 and re.search(r"^\d+ skipped in ", self.said, re.M)
        return "; ".join(dict.fromkeys(SKIPPED.findall(self.said))) if is_skipped else ""


def copy_rooms(copy: str) -> str:
    """Copies the rooms, and the definitions of the crates, to a new folder."""
    for room in (*ROOMS, *glob.glob("crates/*/specs", root_dir=TOP)):
        # in tests/out other runs write meanwhile
        shutil.copytree(f"{TOP}/{room}", f"{copy}/{room}", symlinks=True,
                        ignore=shutil.ignore_patterns("__pycache__", ".hypothesis", ".pytest_cache", "out"))
    for file in FILES:
        os.makedirs(os.path.dirname(f"{copy}/{file}"), exist_ok=True)
        shutil.copy(f"{TOP}/{file}", f"{copy}/{file}")
    return copy


def run_tests(top: str, names: Iterable[str], *words: str, seconds: float = 400, memory: int = 0) -> Ended:
    """Runs tests, by their names from the top, in a copy or in the repository itself. A run that takes longer is
    interrupted, and has the status -1. What it started ends with it. With `memory` none of its processes gets more
    bytes."""
    bound = ["prlimit", f"--data={memory}"] if memory else []
    command = [*bound, sys.executable, "-B", "-m", "pytest", *names, "-q", "-rfEs", "--tb=short", "-n", "0", *words]
    with subprocess.Popen(command, cwd=top, stdin=subprocess.DEVNULL, stdout=subprocess.PIPE, stderr=subprocess.STDOUT,
                          text=True, errors="replace", start_new_session=True, env=environment()) as run:
        status = None
        try:
            said, _ = run.communicate(timeout=seconds)
            status = run.returncode
        except subprocess.TimeoutExpired:
            said = interrupted(run)
        finally:
            end_session(run)
    return Ended(-1 if status is None else status, names_in(said, "FAILED"), names_in(said, "ERROR"), said)


def names_in(said: str, how: str) -> frozenset[str]:
    """The tests, or files, of which the last lines of pytest say this. Parameters may have blanks."""
    return frozenset(re.findall(rf"^{how} (\S+?(?:\[.*?\])?)(?: - .*)?$", said, re.M))


def environment() -> dict[str, str]:
    """What a run finds in its environment: nothing of the run that started it, and not that it is the gate: there a
    test fails if a command is missing, as if it saw what is wrong."""
    kept = {name: value for name, value in os.environ.items() if not name.startswith("PYTEST_") and name != "CI"}
    return {**kept, "PYTHONDONTWRITEBYTECODE": "1", "COLUMNS": "200"}


def interrupted(run: subprocess.Popen) -> str:
    """What a run said until it was interrupted, and while its fixtures ended what they had started."""
    run.send_signal(signal.SIGINT)
    try:
        return run.communicate(timeout=SECONDS_TO_END)[0]
    except subprocess.TimeoutExpired:
        end_session(run)
        return run.communicate()[0]


def end_session(run: subprocess.Popen) -> None:
    """Ends what is left of a run, also where the test that started it is itself interrupted."""
    try:
        os.killpg(run.pid, signal.SIGKILL)
    except ProcessLookupError:
        pass
