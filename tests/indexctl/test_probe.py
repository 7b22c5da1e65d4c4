"""The probe of a case: a transfer that states that the home page is not quiet is refused, whatever else holds."""
from __future__ import annotations

import itertools
import json
import time
from typing import Any, Dict, Iterator, List, Tuple

import pytest
from support.indexctl.control import DAY, Control, filled, line, rows_in, rows_of, upload_line, user_lines
from support.indexctl.tables import TABLES
from support.planted import catches
from support.serving import Index

pytestmark = pytest.mark.xdist_group("probe")
# what docs/office/RETENTION.md answers by the first of these that fails: attempts, six weeks, a year, quiet
REFUSALS = "TooFewAttempts", "TooEarly", "RecentRelease", "HomePageActive"
# each name, and whether it has the attempts, the six weeks and the year
HAS = {f"name{at}": has for at, has in enumerate(itertools.product((True, False), repeat=3))}
EXPECTED = {name: next((refusal for is_there, refusal in zip(has, REFUSALS) if not is_there), REFUSALS[-1])
            for name, has in HAS.items()}


def lines_of(now: int) -> Iterator[Dict[str, object]]:
    yield from user_lines("ann", "bob")
    for name, (attempts, weeks, year) in HAS.items():
        yield line(now - 500 * DAY, "ann", "claim", name=name)
        yield upload_line(now - (366 if year else 364) * DAY, "ann", f"{name}-1.0.tar.gz", 1)
        yield line(now - 60 * DAY, "bob", "open_case", name=name, kind="reuse", contact="a", work="b", why="c")
        sent = now - (43 if weeks else 41) * DAY
        for means in ("profile", "author", *(("pages",) if attempts else ())):
            yield line(sent, "office", "record_attempt", name=name, means=means, sent=True)
    yield line(now - 500 * DAY, "ann", "claim", name="quiet")


class Probed:
    """What was answered and listed, and the tables before and after."""

    def __init__(self, program: str, folder: str) -> None:
        path = filled(program, f"{folder}/probe.db", lines_of(int(time.time())))
        self.before = self.tables(path)
        self.answers: Dict[str, Tuple[int, str]] = {}
        with Index(program, path=path) as index:
            for name in (*HAS, "quiet", "free"):
                status, _, body = index.request(do="transfer", name=name, quiet=False)
                self.answers[name] = status, json.loads(body)["name"]
            by = Control(folder, f"http://127.0.0.1:{index.port}")
            self.office, self.owner = (by.run("case", "list", "--json", caller=it) for it in ("office", "ann"))
            self.others = by.run("case", "list", caller="bob")
            # a probe that looks at a case of another account must leave the record as it was
            self.record = f"{folder}/record.jsonl"
            by.run("case", "list", INDEX_RECORD=self.record)
        self.after = self.tables(path)

    @staticmethod
    def tables(path: str) -> Dict[str, List[Any]]:
        return {it: sorted(rows_of(path, f"SELECT * FROM {it}")) for it in TABLES}


@pytest.fixture(scope="module")
def probed(program: str, shared_folder: str) -> Probed:
    return Probed(program, shared_folder)


@pytest.mark.parametrize("name", HAS)
def test_a_transfer_that_is_not_quiet_is_refused_by_the_first_that_fails(probed: Probed, name: str) -> None:
    status, answer = probed.answers[name]
    assert status >= 400 and answer == EXPECTED[name]


@pytest.mark.parametrize("name, answer", [("quiet", "NoCase"), ("free", "NoProject")])
def test_a_transfer_without_a_case_is_refused(probed: Probed, name: str, answer: str) -> None:
    assert probed.answers[name][0] >= 400 and probed.answers[name][1] == answer


@catches("indexctl/probe.py", 'row = {"do": "transfer", "name": name, "quiet": False}',
         'row = {"do": "transfer", "name": name, "quiet": True}')
def test_no_probe_changes_the_tables(probed: Probed) -> None:
    assert probed.after == probed.before


def test_no_probe_makes_a_record(probed: Probed) -> None:
    with pytest.raises(FileNotFoundError):
        open(probed.record).close()


def test_the_year_of_each_case_is_that_of_the_rules(probed: Probed) -> None:
    years = {"HomePageActive": "over", "RecentRelease": "not over"}
    assert {row["name"]: row["year"] for row in rows_in(probed.office)} == {
        name: years.get(refusal, "unknown") for name, refusal in EXPECTED.items()}


def test_a_case_is_ready_if_it_lacks_nothing(probed: Probed) -> None:
    assert [row["name"] for row in rows_in(probed.office) if row["ready"]] == ["name0"]


@catches("indexctl/probe.py", "return sorted(rows, key=soonest), is_office",
         'return sorted(rows, key=lambda row: row["name"]), is_office')
def test_the_soonest_case_comes_first(probed: Probed) -> None:
    rows = rows_in(probed.office)
    order = [(not row["ready"], row["latest"] if row["year"] == "not over" else row["earliest"]) for row in rows]
    assert len(rows) == len(HAS) and order == sorted(order)


@catches("indexctl/probe.py", 'is_office = bool(having and desk.setting.token) and desk.caller() == "office"',
         "is_office = True")
def test_who_is_not_of_the_office_sees_no_year(probed: Probed) -> None:
    assert {row["year"] for row in rows_in(probed.owner)} == {"unknown"}
    assert "takes a token of the office" in probed.others.stdout
