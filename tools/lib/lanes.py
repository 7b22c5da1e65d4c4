"""What tools/build and tools/try-edits share: the kit's own code, and tasks that go side by side."""
from __future__ import annotations

import argparse
import copy
import importlib.machinery
import importlib.util
import json
import os
import queue
import signal
import subprocess
import sys
import tempfile
import threading
import time
from contextlib import suppress
from typing import Any, Callable, Iterator, Sequence, Tuple, TypeAlias

from children import ends
from top import TOP
from trial import whole_number

# how a proof ended: its status, what was said, and the seconds
Outcome = Tuple[int, str, float]
# where each task is put that has ended, with what its call gave
Ends: TypeAlias = "queue.SimpleQueue[Tuple[Task, Any]]"

# tasks side by side plan on no more memory than this, in bytes, and on no more than this part of what is free
MOST_MEMORY, MOST_OF_FREE = 18_000_000_000, 0.85
# a crate has at most so many jobs, and each job after the first takes this part of the memory of the first
MOST_JOBS, OF_A_JOB = 4, 0.8
# a crate's proof takes about as long as that of its own lines of Rust, and of so many for each crate below it
LINES_OF_A_CRATE_BELOW = 70


def kit() -> Any:
    """The code of the kit's command, which knows crates.txt and the words of a check."""
    try:
        said = subprocess.run(["rt", "doc"], stdout=subprocess.PIPE, text=True, check=True).stdout.strip()
    except (OSError, subprocess.CalledProcessError) as error:
        sys.exit(f"the kit's command rt does not run: {error}. README.md says which kit you need, and from whom")
    loader = importlib.machinery.SourceFileLoader("rt", f"{os.path.dirname(said)}/bin/rt")
    spec = importlib.util.spec_from_loader("rt", loader)
    assert spec
    made = importlib.util.module_from_spec(spec)
    loader.exec_module(made)
    return made


def weight(crate: Any) -> int:
    """How long a crate's proof takes beside those of others."""
    return int(crate.count(rb"\n")) + LINES_OF_A_CRATE_BELOW * len(crate.below())


def prove(library: Any, jobs: int) -> Outcome:
    """Proves a library, and returns the status, what the prover said, and the seconds."""
    begun, library = time.monotonic(), copy.copy(library)
    with tempfile.TemporaryFile("w+", errors="replace") as library.out:
        status = library.build_rlib(["--jobs", str(jobs)], anew=False)
        library.out.seek(0)
        return status, library.out.read(), time.monotonic() - begun


def is_fresh(rt: Any, crate: Any, known: dict[str, bool], of_ci: set[str]) -> bool:
    """Returns whether the crate's library is there, made of its sources and of the libraries below as they are.
    Those of `rt ci` hold statements, and have no stamp: then it is one of of_ci, or nothing that the library is
    made of is younger than it."""
    if crate.name not in known:
        known[crate.name] = crate.is_built() or (
            all(is_fresh(rt, it, known, of_ci) and not has_stamp(it) for it in crate.deps)
            and not has_stamp(crate) and os.path.isfile(f"{crate.rlib}/format")
            and (crate.name in of_ci or youngest(rt, crate) < os.path.getmtime(f"{crate.rlib}/format")))
    return known[crate.name]


def libraries_of_ci(rt: Any, crates: Sequence[Any]) -> set[str]:
    """Returns the names of the libraries that stand as `rt ci` keeps them on this machine for these sources, over
    libraries below that do so too. An earlier run may have made them, so their times tell nothing. Some revisions of
    the kit keep nothing: then there are none."""
    if not hasattr(rt, "Kept"):
        return set()
    rt.Crate.allowed = rt.handles_of(TOP)
    found: set[str] = set()
    kept = rt.Kept(crates)
    for it in crates:
        try:
            with open(f"{kept.place(it, False, kept.key(it))}/made.json", encoding="utf-8") as entry:
                sums = json.load(entry)["files"]
        except (OSError, ValueError, KeyError):
            continue
        if it.is_program:
            continue
        if sums == [[path, rt.rtlib.sum_of(f"{it.folder}/out/{path}")] for path in kept.made(it, False)]:
            kept.is_built(it)
            found.add(it.name)
    return found


def has_stamp(crate: Any) -> bool:
    return os.path.isfile(f"{crate.folder}/out/rlib/stamp")


def youngest(rt: Any, crate: Any) -> float:
    """Returns when the crate's list, files and folders, and the libraries below it, were last changed."""
    files = [*rt.rtlib.files_of(crate.folder)]
    folders = {f"{crate.folder}/{part}" for part in rt.rtlib.PARTS} | {os.path.dirname(it) for it in files}
    others = [f"{TOP}/crates.txt", *[f"{it.rlib}/format" for it in crate.deps]]
    return max(os.path.getmtime(it) for it in [*files, *folders, *others] if os.path.exists(it))


def lanes_of(asked: argparse.ArgumentParser) -> None:
    """Adds --lanes N to a tool's arguments."""
    how = "how many processors to use; as many as there are, if left out"
    asked.add_argument("--lanes", type=whole_number, metavar="N", help=how)


def room(rt: Any) -> float:
    """The memory that tasks may plan on, in bytes."""
    return float(min(MOST_OF_FREE * rt.free(), MOST_MEMORY))


def end_at_signals(ending: Callable[[], str]) -> None:
    """Has SIGINT, SIGTERM and SIGHUP end the process at once, with what this call says on standard error. What the
    kit's code started ends with it: a process of the kit's waits for the end of this one, and then kills all the
    others."""
    def end(number: int, _: object) -> None:
        # (a signal that comes in the midst of a print can't print)
        with suppress(RuntimeError):
            sys.stdout.flush()
        os.write(2, f"{ending()}\n".encode())
        os._exit(128 + number)
    for it in ends():
        signal.signal(it, end)


class Task:
    """A call, which gets how many jobs it may use, with the names of the tasks that it waits for, its weight
    beside other tasks, the memory that it takes with one job, in bytes, the most jobs that it may use, and the part of
    the memory that each job after the first takes."""

    def __init__(self, name: str, waits: list[str], weight: float, memory: float, call: Callable[[int], Any],
                 most_jobs: int = MOST_JOBS, of_a_job: float = OF_A_JOB) -> None:
        self.name, self.waits, self.weight, self.memory = name, waits, weight, memory
        self.call, self.most_jobs, self.of_a_job, self.jobs = call, most_jobs, of_a_job, 0

    def memory_with(self, jobs: int) -> float:
        return self.memory * (1 + self.of_a_job * (jobs - 1))

    def run(self, ended: Ends) -> None:
        """Hands over what the call gives, or how it ended otherwise."""
        try:
            gave = self.call(self.jobs)
        except BaseException as error:
            gave = error
        ended.put((self, gave))


def start_some(left: list[Task], done: set[str], running: list[Task], lanes: int, memory: float, ended: Ends) -> None:
    """Starts those tasks, the first of them first, that wait for nothing, while there are lanes and memory for
    them."""
    ready = [it for it in left if done.issuperset(it.waits)]
    for at, it in enumerate(ready):
        idle = lanes - sum(other.jobs for other in running)
        free = memory - sum(other.memory_with(other.jobs) for other in running)
        if idle < 1:
            return
        if running and it.memory > free:
            continue
        # it gets the lanes that no other task waits for, where there is memory for them
        jobs = min(it.most_jobs, idle // (len(ready) - at))
        while jobs > 1 and it.memory_with(jobs) > free:
            jobs -= 1
        it.jobs = max(jobs, 1)
        left.remove(it)
        running.append(it)
        threading.Thread(target=it.run, args=(ended,), daemon=True).start()


def side_by_side(tasks: Sequence[Task], lanes: int, memory: float) -> Iterator[tuple[Task | None, Any]]:
    """Runs tasks, of which each stands after those that it waits for, and first those with the most weight behind
    them. Yields each as it ends with what its call gave, and after each second without an end None with those
    under way. What a call raises is raised here."""
    behind: dict[str, float] = {}
    ended: Ends = queue.SimpleQueue()
    for it in reversed(tasks):
        above = [behind[other.name] for other in tasks if it.name in other.waits]
        behind[it.name] = it.weight + max(above, default=0)
    left = sorted(tasks, key=lambda it: -behind[it.name])
    running: list[Task] = []
    done: set[str] = set()
    while left or running:
        start_some(left, done, running, lanes, memory, ended)
        try:
            task, gave = ended.get(timeout=1)
        except queue.Empty:
            yield None, [*running]
            continue
        if isinstance(gave, BaseException):
            raise gave
        running.remove(task)
        done.add(task.name)
        yield task, gave
