"""The subcommands on a database, and how each run of the program ends."""
from __future__ import annotations

import subprocess
from dataclasses import dataclass

from support.running import run
from support.serving import OFFICE

# what works on an index, all subcommands, and `init` in both of its ways
WORKING = "apply", "serve", "report", "check"
ALL = (*WORKING, "init")
SUMS = "init --page-sums"
PATHS = (*ALL, SUMS)
NO_ADDRESS = "--listen", "nowhere", "--requests", "1"


@dataclass(frozen=True)
class End:
    """How a run ended: its status, its standard output and its standard error."""
    status: int
    output: bytes = b""
    error: bytes = b""


def words_of(job: str, path: str) -> tuple[str, ...]:
    """The words of a subcommand on the database at this path. `serve` would listen at an address that is none."""
    job, *flags = job.split()
    more = {"serve": NO_ADDRESS, "init": OFFICE}
    return (job, "--db", path, *more.get(job, ()), *flags)


def end_of(program: str, *words: str | bytes, **how) -> End:
    """How the program ends on these words; `how` is that of `run`."""
    ended: subprocess.CompletedProcess = run(program, *words, **how)
    return End(ended.returncode, ended.stdout or b"", ended.stderr or b"")
