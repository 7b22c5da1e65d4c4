"""`import` and `export`: after a signal or a kill before a step, a second run does what was asked for."""
from __future__ import annotations

import hashlib
import json
import os
import shutil
import signal

import pytest
from support.indexctl.control import Control, assert_ends, filled, put, user_lines
from support.indexctl.sources import made_world, nexus, serving
from support.packages import wheel_name
from support.places import INDEXCTL
from support.planted import catches
from support.server.stops import ended_before, is_reached, steps_of
from support.serving import JSON_PAGE, Index, accepted

pytestmark = [pytest.mark.slow, pytest.mark.timeout(600)]
SIGNALS = (signal.SIGKILL, *(pytest.param(it, marks=pytest.mark.by_turns("walks"))
                             for it in (signal.SIGINT, signal.SIGTERM, signal.SIGHUP)))
NAMES = "frob", "spam-nest"
# Of the steps of a run so many are tried, from its first to its last: an import has some eighty, in an order of its
# threads. MORE are more than any run has.
TRIED, FEWEST_STOPPED, MORE = 16, 8, 100_000


def stands(index: Index):
    """What the index has of the two names: their pages and their owners."""
    pages = [index.ask("GET", f"/simple/{it}/", Accept=JSON_PAGE)[2] for it in NAMES]
    return pages, [json.loads(index.ask("GET", f"/names/{it}")[2]).get("owners") for it in NAMES]


def stopped_at(step: int, number: int, words, by: Control):
    setting = {"INDEX_TOKEN": "ann", **{it: value for it, value in by.setting.items() if value}}
    return ended_before(step, number, [INDEXCTL[-1], *words], **setting)


def walk(number: int, looked, run):
    """Runs that are stopped at some of their steps. `run` says how each ended."""
    count, stopped = steps_of(run(MORE)[0]), 0
    for step in range(0, count, -(-count // TRIED)):
        first, is_well, said = run(step)
        # threads may take a step less
        stopped += is_reached(first)
        looked(first.returncode in (-number, 130) or not is_reached(first), step, first.returncode, first.stdout)
        looked("Traceback" not in first.stdout, step, first.stdout)
        looked(is_well, step, said, first.stdout)
    looked(stopped >= FEWEST_STOPPED, stopped, count)


@catches("indexctl/moving/targets.py", 'or self.look().state == "free" and not self.claimed:', "or not self.claimed:",
         case="9")
@pytest.mark.parametrize("number", SIGNALS)
def test_an_import_that_was_stopped_is_done_by_a_second_one(program, folder, looked, number):
    path = filled(program, f"{folder}/index.db", user_lines("ann", "bob"))
    other = nexus(made_world(f"{folder}/made"), yanks={wheel_name("frob", "1.1"): "old"})
    owners = put(f"{folder}/owners.csv", "frob,bob\n")
    with serving(other.replies) as server:
        words = ["import", f"{server.url}{other.root}/", "--owners", owners]

        def run(step):
            with Index(program, path=shutil.copy(path, f"{folder}/{step}.db")) as index:
                by = Control(folder, f"http://127.0.0.1:{index.port}", INDEX_RECORD=f"{folder}/{step}.jsonl")
                first = stopped_at(step, number, words, by) if step >= 0 else None
                again = by.run(*words, caller="ann")
                is_well = again.returncode == 0 and (step < 0 or stands(index) == wanted)
                return first, is_well, (again.stdout, stands(index))
        wanted = run(-1)[2][1]
        assert wanted[1] == [["ann", "bob"], ["ann"]] and b'"yanked":"old"' in wanted[0][0]
        walk(number, looked, run)


@catches("indexctl/moving/exports.py", "os.makedirs(os.path.join(self.folder, page.name), exist_ok=True)",
         "os.makedirs(os.path.join(self.folder, page.name))")
@pytest.mark.parametrize("number", SIGNALS)
def test_an_export_that_was_stopped_is_done_by_a_second_one(program, folder, looked, number):
    def files():
        found = {}
        for where, _, names in os.walk(f"{folder}/out"):
            for it in names:
                with open(os.path.join(where, it), "rb") as kept:
                    found[os.path.relpath(os.path.join(where, it), folder)] = hashlib.sha256(kept.read()).hexdigest()
        shutil.rmtree(f"{folder}/out")
        return {path: digest for path, digest in found.items() if not path.endswith(".part")}
    with Index(program, path=filled(program, f"{folder}/index.db", user_lines("ann"))) as index:
        for name, its in made_world(f"{folder}/made").items():
            accepted(index.claim(name, "ann"))
            for file, data in its.items():
                accepted(index.upload(name, file, data, token="ann"))
        by = Control(folder, f"http://127.0.0.1:{index.port}")
        assert_ends(by.run("export", f"{folder}/out"), 0, "4 files written")
        wanted = files()

        def run(step):
            first = stopped_at(step, number, ["export", f"{folder}/out"], by)
            again = by.run("export", f"{folder}/out")
            found = files()
            return first, again.returncode == 0 and found == wanted, (again.stdout, found)
        walk(number, looked, run)
