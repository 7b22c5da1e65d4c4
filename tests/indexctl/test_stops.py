"""`user leave` and `replay`: after a signal or a kill before any request, or behind any answer, a second run does what
was asked for, and nothing is done twice."""
from __future__ import annotations

import json
import shutil
import signal
import time

import pytest
from support.indexctl.control import Control, digest, filled, line, rows_of, user_lines
from support.indexctl.tables import TABLES
from support.places import INDEXCTL
from support.planted import catches
from support.server.stops import ended_before, is_reached
from support.serving import Index

pytestmark = [pytest.mark.slow, pytest.mark.timeout(1800)]
SIGNALS = (signal.SIGKILL, *(pytest.param(it, marks=pytest.mark.by_turns("walks"))
                             for it in (signal.SIGINT, signal.SIGTERM, signal.SIGHUP)))
# of a run without an end; there are 40 and more
FEWEST_STEPS = 30
# columns that have a moment, which is that of the run
MOMENTS = {"cases": "name, kind, candidate, contact, work, why, attempts, sent, profile, author, pages"}
LEAVES = "user", "leave", "eve", "--to", "bob", "--yes"
TEXTS = {"kind": "reuse", "contact": "a", "work": "b", "why": "c"}


def tables_of(path):
    """All tables, but the token that nobody knows."""
    found = {it: sorted(rows_of(path, f"SELECT {MOMENTS.get(it, '*')} FROM {it}")) for it in TABLES if it != "users"}
    return {**found, "users": sorted(rows_of(path, "SELECT user, office FROM users"))}


class Runs:
    """Runs of indexctl with these words, on copies of an index and of a record."""

    def __init__(self, program, folder, words, record=""):
        self.program, self.folder, self.words, self.record, self.count = program, folder, words, record, 0

    def stopped(self, path, step, number):
        """The database after a run that was stopped, how it ended, and how another one ended then. No step is -1."""
        self.count += 1
        at, record = shutil.copy(path, f"{self.folder}/{self.count}.db"), f"{self.folder}/{self.count}.jsonl"
        with open(record, "w", encoding="utf-8") as made:
            made.write(self.record)
        words = [it.replace("RECORD", record) for it in self.words]
        with Index(self.program, path=at) as index:
            by = Control(self.folder, f"http://127.0.0.1:{index.port}", INDEX_RECORD=record)
            setting = {it: value for it, value in {"INDEX_TOKEN": "office", **by.setting}.items() if value}
            first = step >= 0 and ended_before(step, number, [INDEXCTL[-1], *words], **setting)
            held = [by.rows("names")] if step >= 0 else []
            again = by.run(*words)
            dry = by.run("replay", record, "--since", "2026-01-01", "--dry-run")
        return at, first, held, again, dry


def walked(runs, path, number, looked):
    """Each step of a run that this signal stops. The tables after a second run are those of one that nothing stops."""
    wanted = tables_of(runs.stopped(path, -1, number)[0])
    step, has_more = 0, True
    while has_more:
        at, first, held, again, dry = runs.stopped(path, step, number)
        has_more, said = is_reached(first), (step, number, first.returncode, first.stdout, again.stdout)
        looked(first.returncode in (-number, 130) or not has_more, *said)
        looked("Traceback" not in first.stdout, *said)
        looked(all(it["owners"] for it in held[0]), held, *said)
        looked(again.returncode == 0 and tables_of(at) == wanted, tables_of(at), wanted, *said)
        looked(dry.returncode == 0, dry.stdout, *said)
        yield step, first, rows_of(at, "SELECT user, token FROM users")
        step += 1
    print(f"{' '.join(runs.words[:2])}: {step - 1} steps by {number.name}")
    looked(step > FEWEST_STEPS, step)


@catches("indexctl/commands/users.py",
         'if desk.change(f"user {user}: lock", {"do": "set_token", "user": user, "token_sha256": sha256(token)}):',
         "if token:", case="9")
@pytest.mark.parametrize("number", SIGNALS)
def test_a_user_who_half_left_has_left_after_a_second_run(program, folder, looked, number):
    path = filled(program, f"{folder}/index.db", [
        *user_lines("ann", "bob", "eve"), *(line(1, "eve", "claim", name=it) for it in ("one", "two")),
        line(2, "eve", "add_owner", name="two", user="bob"), line(2, "ann", "claim", name="frob"),
        line(3, "eve", "open_case", name="frob", **TEXTS)])
    for step, first, users in walked(Runs(program, folder, LEAVES), path, number, looked):
        looked(dict(users)["eve"] != bytes.fromhex(digest("eve")), step)
        if "lock: accepted" in first.stdout and number != signal.SIGKILL and first.returncode:
            looked("Run it again, to the end" in first.stdout, step, first.stdout)


@catches("indexctl/replays.py", "return case.attempts >= len(attempts) and", "return case.attempts < 0 and", case="9")
@catches("tests/support/server/stops.py", 'if event in CALLS or event == "open" and words[2]',
         'if event == "none" and words[2]', case="9")
@pytest.mark.parametrize("number", SIGNALS)
def test_a_replay_that_was_stopped_is_done_by_a_second_one_and_counts_nothing_twice(program, folder, looked, number):
    now, caller = int(time.time()), digest("office")[:8]
    path = filled(program, f"{folder}/index.db", [
        *user_lines("ann", "bob"), line(now - 100, "ann", "claim", name="old"),
        line(now - 90, "bob", "open_case", name="old", **TEXTS)])
    # attempts first: a walk meets at an early step what counts them twice
    rows = (*({"do": "record_attempt", "name": "old", "means": it, "sent": True} for it in ("profile", "author")),
            {"do": "prohibit", "name": "evil"}, {"do": "set_quota", "name": "old", "quota": 1 << 30},
            {"do": "add_user", "user": "zoe", "office": False, "token_sha256": digest("zoe")})
    moments = (time.strftime("%Y-%m-%dT%H:%M:%SZ", time.gmtime(now - 50 + at)) for at in range(len(rows)))
    record = "".join(f"{json.dumps({'at': at, 'caller': caller, **row})}\n" for at, row in zip(moments, rows))
    runs = Runs(program, folder, ["replay", "RECORD", "--since", "2026-01-01"], record)
    for step, first, users in walked(runs, path, number, looked):
        looked("zoe" in dict(users), step, users)
