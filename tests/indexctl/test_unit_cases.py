"""What a case lacks and when it can be ready, at the second of each rule."""
from __future__ import annotations

import itertools
import random
from dataclasses import replace

import pytest
from indexctl import cases, probe
from indexctl.ends import UNREACHED, Stop
from indexctl.units import SIX_WEEKS, YEAR, due
from support.indexctl.rows import OPENED, SETTING, case_of, held


def case_at(now, refusal=None, **changed):
    return cases.case_row(held(), case_of(**changed), now, refusal)


@pytest.mark.parametrize("later, lacks", [(SIX_WEEKS - 1, 1), (SIX_WEEKS, 0), (SIX_WEEKS + 1, 0)])
def test_six_weeks_are_over_at_their_second(later, lacks):
    row = case_at(OPENED + later, "HomePageActive")
    assert (len(row.lacks), row.ready) == (lacks, not lacks)


@pytest.mark.parametrize("later, year", [(YEAR - 1, "unknown"), (YEAR, "over")])
def test_a_year_is_over_at_its_second(later, year):
    assert case_at(OPENED + later).year == year


@pytest.mark.parametrize("refusal, year", [("HomePageActive", "over"), ("RecentRelease", "not over"),
                                           ("TooEarly", "unknown"), (None, "unknown"), ("", "unknown")])
def test_a_refusal_says_whether_the_year_is_over(refusal, year):
    assert case_at(OPENED, refusal).year == year


@pytest.mark.parametrize("sent, said", [(4, []), (3, []), (2, ["1 more attempt sent"]), (0, ["3 more attempts sent"])])
def test_three_attempts_are_needed(sent, said):
    assert case_at(OPENED + SIX_WEEKS, "HomePageActive", sent=sent).lacks == said


def test_an_attempt_by_each_means_is_needed():
    for is_there in itertools.product((True, False), repeat=3):
        row = case_at(OPENED + SIX_WEEKS, "HomePageActive", **dict(zip(cases.MEANS, is_there)))
        assert row.lacks == [f"an attempt by {it}" for it, there in zip(cases.MEANS, is_there) if not there]
        assert [row.has(it) for it in cases.MEANS] == list(is_there)


def test_a_case_without_an_attempt_begins_its_six_weeks_now():
    row = case_at(OPENED + 5, first=None, sent=0, attempts=0)
    assert row.earliest == OPENED + 5 + SIX_WEEKS
    assert row.lacks[-1] == "six weeks from the first attempt on"
    assert cases.ready_text(row) == "not begun"


def test_a_case_says_until_when_its_six_weeks_are():
    row = case_at(OPENED + 5, first=OPENED + 3)
    assert (row.earliest, row.lacks) == (OPENED + 3 + SIX_WEEKS, [f"six weeks, until {due(row.earliest)}"])
    assert cases.ready_text(row) == f"from {due(row.earliest)}"


@pytest.mark.parametrize("changed", [{"sent": 2}, {"pages": False}, {"profile": False}, {"author": False}])
def test_a_case_that_lacks_attempts_is_ready_at_no_moment(changed):
    row = cases.case_row(held(), case_of(**changed), OPENED + 2 * SIX_WEEKS, None)
    assert cases.ready_text(row) == "lacks attempts"


def test_a_case_whose_year_is_not_over_lacks_that():
    row = case_at(OPENED + SIX_WEEKS, "RecentRelease")
    assert row.lacks == [f"a year since the latest upload, until {due(OPENED + YEAR)} at the latest"]
    assert (row.ready, row.latest) == (False, OPENED + YEAR)
    assert cases.ready_text(row) == f"by {due(OPENED + YEAR)}"
    assert cases.lacks_text(row) == row.lacks[0]


def test_what_can_be_ready_is_never_before_now():
    now = OPENED + 3 * SIX_WEEKS
    row = case_at(now, "HomePageActive")
    assert (row.earliest, row.latest, row.ready) == (now, now, True)
    assert (cases.ready_text(row), cases.lacks_text(row)) == ("now", "a look at the home page")


def test_the_latest_moment_is_that_of_the_year_or_of_the_six_weeks():
    assert case_at(OPENED + 1).latest == OPENED + YEAR
    late = OPENED + YEAR
    assert case_at(late - 1, first=late - 1).latest == late - 1 + SIX_WEEKS


def test_a_case_of_which_nobody_asked_may_lack_the_year():
    row = case_at(OPENED + SIX_WEEKS)
    assert (row.lacks, row.ready, row.year) == ([], False, "unknown")
    assert cases.lacks_text(row) == f"perhaps a year since the latest upload, until {due(OPENED + YEAR)} at the latest"


def test_a_row_has_what_the_case_and_the_name_have():
    case = case_of(attempts=7, sent=5, kind="continue")
    row = cases.case_row(held("frob", owners=["ann", "bea"]), case, OPENED, None)
    assert (row.name, row.owners, row.kind, row.candidate) == ("frob", ["ann", "bea"], "continue", "bob")
    assert (row.attempts, row.sent, row.opened, row.first) == (7, 5, OPENED, OPENED)
    assert (row.contact, row.work, row.why) == ("c", "w", "y")


def test_cases_that_are_ready_come_first_and_then_by_moment():
    ready = case_at(OPENED + 2 * SIX_WEEKS, "HomePageActive")
    sooner, later = (case_at(OPENED + 5, first=OPENED + at) for at in (1, 2))
    # a year that is not over counts by its end
    not_over = case_at(OPENED + SIX_WEEKS, "RecentRelease")
    rows = [not_over, later, ready, sooner]
    random.Random(1).shuffle(rows)
    assert sorted(rows, key=cases.soonest) == [ready, sooner, later, not_over]
    assert cases.soonest(not_over)[1] == OPENED + YEAR


class FakeDesk:
    """A desk whose caller and answers are given, and which keeps what was posted."""

    def __init__(self, caller, answers=(), token="x"):
        self.setting, self.is_caller = replace(SETTING, token=token), caller
        self.posted, self.left, self.times = [], list(answers), 0

    def caller(self):
        self.times += 1
        return self.is_caller

    def post(self, what, row, token=None, is_kept=True, more=None):
        self.posted.append((row, is_kept))
        return self.left.pop(0)


def test_a_probe_states_that_the_page_is_not_quiet_and_takes_no_room_in_the_record():
    desk = FakeDesk("office", [(409, "TooEarly")])
    assert probe.probe(desk, "frob") == "TooEarly"
    assert desk.posted == [({"do": "transfer", "name": "frob", "quiet": False}, False)]


def test_a_probe_that_was_accepted_ends_the_run():
    with pytest.raises(Stop, match="No such index is known") as end:
        probe.probe(FakeDesk("office", [(200, "accepted")]), "frob")
    assert end.value.status == UNREACHED


def test_the_office_probes_each_open_case_and_nothing_else():
    names = [held("a", case=case_of()), held("b"), held("c", case=case_of())]
    desk = FakeDesk("office", [(409, "HomePageActive"), (409, "NoCase")])
    rows, is_office = probe.open_cases(desk, names, OPENED + 2 * SIX_WEEKS)
    assert (is_office, [row.name for row in rows], rows[0].ready) == (True, ["a"], True)
    assert [row["name"] for row, _ in desk.posted] == ["a", "c"]


@pytest.mark.parametrize("answer", ["NoCase", "NoProject"])
def test_a_case_that_ended_meanwhile_is_left_out(answer):
    rows, _ = probe.open_cases(FakeDesk("office", [(404, answer)]), [held(case=case_of())], OPENED)
    assert rows == []


@pytest.mark.parametrize("caller, token, asks", [("user", "x", 1), ("nobody", "x", 1), ("office", "", 0)])
def test_who_is_not_of_the_office_probes_nothing(caller, token, asks):
    desk = FakeDesk(caller, token=token)
    rows, is_office = probe.open_cases(desk, [held(case=case_of())], OPENED)
    assert (is_office, len(rows), desk.posted, desk.times) == (False, 1, [], asks)


def test_without_an_open_case_nobody_asks_who_the_caller_is():
    desk = FakeDesk("office")
    assert probe.open_cases(desk, [held()], OPENED) == ([], False) and desk.times == 0
