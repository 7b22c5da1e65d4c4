"""Rows and parts of the office's page at their boundaries."""
from __future__ import annotations

import base64
import hashlib
import html
import os
import re

import pytest
from indexctl import cases, page, quotas
from indexctl.ends import WRONG, Stop
from indexctl.units import SIX_WEEKS, YEAR, due, moment
from support.indexctl.rows import OPENED, case_of, held
from support.planted import catches


def row_at(now, refusal=None, **changed):
    return cases.case_row(held(), case_of(**changed), now, refusal)


def overview_of(*names):
    """An overview with all of these names."""
    made = quotas.Overview(is_whole=True)
    list(made.look_at(names))
    return made


LINK = '<a href="#case-frob">frob</a>'
READY = row_at(OPENED + 2 * SIX_WEEKS, "HomePageActive")


@pytest.mark.parametrize("charge, quota, full", [(0, 10, 0.0), (5, 10, 50.0), (10, 10, 100.0), (0, 0, 100.0),
                                                 (1, 3, 100 / 3)])
def test_a_quota_is_full_by_percent(charge, quota, full):
    row = quotas.quota_row(held("a", charge=charge, quota=quota, owners=["x", "y"]))
    assert (row.name, row.full, row.charge, row.quota, row.owners) == ("a", full, charge, quota, ["x", "y"])


def test_the_fullest_come_first_and_then_by_name():
    names = [held(name, charge=charge, quota=100) for name, charge in (("c", 5), ("b", 90), ("a", 5), ("d", 100))]
    assert [it.name for it in quotas.quota_rows(names, 0)] == ["d", "b", "a", "c"]
    assert [it.name for it in quotas.quota_rows(names, 90)] == ["d", "b"]
    assert [it.name for it in quotas.quota_rows(names, 90.1)] == ["d"]


def test_owners_have_what_they_own_alone():
    names = [held("a", owners=["bob", "ann"]), held("b", owners=["bob"])]
    found = overview_of(*names).owned
    assert [(it.name, it.alone) for it in found["bob"]] == [("a", False), ("b", True)]
    assert [(it.name, it.alone) for it in found["ann"]] == [("a", False)]


@catches("indexctl/quotas.py", "if self.is_whole or row.full >= HIGH:", "if self.is_whole or row.full >= 0:")
@catches("indexctl/quotas.py", "if self.is_whole or is_alone:", "if self.is_whole or found.owners:")
def test_a_page_keeps_what_somebody_has_to_look_at():
    names = [held("a", charge=79, quota=100, owners=["ann", "bob"]), held("b", charge=80, quota=100),
             held("c", owners=["bob"]), held("d", owners=["ann", "bob"], case=case_of())]
    found = quotas.Overview()
    assert [it.name for it in found.look_at(names)] == ["d"]
    assert (len(found.owners), found.full, found.alone) == (4, 1, 2)
    assert [it.name for it in found.quotas] == ["b"]
    assert {user: [it.name for it in owned] for user, owned in found.owned.items()} == {"ann": ["b"], "bob": ["c"]}


@catches("indexctl/quotas.py", "if self.is_whole or row.full >= HIGH:", "if row.full >= HIGH:",
         also=["indexctl/test_page.py::test_there_is_a_row_for_each_name_and_each_owner"])
def test_a_page_of_all_keeps_all():
    names = [held("a", owners=["ann", "bob"]), held("b", charge=80, quota=100)]
    found = overview_of(*names)
    assert (len(found.owners), found.full, found.alone, [it.name for it in found.quotas]) == (2, 1, 1, ["a", "b"])
    assert {user: [it.name for it in owned] for user, owned in found.owned.items()} == {"ann": ["a", "b"],
                                                                                        "bob": ["a"]}


def test_a_case_that_is_ready_is_due_now():
    at, what = page.due_of(READY, 7)
    assert at == 7 and "indexctl case transfer frob --quiet" in what


def test_a_case_that_lacks_attempts_is_due_now():
    at, what = page.due_of(row_at(OPENED + 5, pages=False, sent=1), 7)
    assert (at, what) == (7, f"{LINK}: 2 more attempts sent, an attempt by pages")


def test_a_case_in_its_six_weeks_is_due_at_their_end():
    row = row_at(OPENED + 5)
    assert page.due_of(row, OPENED + 5) == (OPENED + SIX_WEEKS, f"{LINK}: the six weeks are over")


def test_a_case_in_its_year_is_due_at_its_end():
    row = row_at(OPENED + SIX_WEEKS)
    at, what = page.due_of(row, OPENED + SIX_WEEKS)
    assert (at, what) == (OPENED + YEAR, f"{LINK}: the year since the latest upload is over by then")


def test_what_is_due_comes_in_order():
    now = OPENED + 6
    part = page.due_part([row_at(now), row_at(OPENED + 5, pages=False), READY], now)
    assert re.findall("<span>(.*?)</span>", part)[::2] == ["now", "now", due(OPENED + SIX_WEEKS)]
    assert page.due_part([], now) == '<p class="none soft">None.</p>'


def marks(row, now):
    return [(sign, text) for (_, sign), text in page.marks_of(row, now)]


def test_marks_say_what_a_transfer_has():
    assert marks(READY, OPENED + 2 * SIX_WEEKS) == [
        ("✓", "3 of 3 attempts sent"), ("✓", "profile"), ("✓", "author"), ("✓", "pages"), ("✓", "six weeks"),
        ("✓", "a year since the latest upload")]


def test_marks_say_what_a_transfer_lacks():
    now = OPENED + 5
    row = row_at(now, "RecentRelease", sent=2, author=False)
    assert marks(row, now) == [
        ("–", "2 of 3 attempts sent"), ("✓", "profile"), ("–", "author"), ("✓", "pages"),
        ("–", f"six weeks, until {due(OPENED + SIX_WEEKS)}"),
        ("–", f"a year since the latest upload, by {due(OPENED + YEAR)} at the latest")]


def test_marks_of_a_case_without_an_attempt():
    row = row_at(OPENED + 5, first=None, sent=0, attempts=0)
    assert marks(row, OPENED + 5)[4:] == [
        ("–", "six weeks"), ("?", f"a year since the latest upload, by {due(OPENED + YEAR)} at the latest")]


def test_the_six_weeks_are_over_at_their_second():
    row = row_at(OPENED + 5)
    assert marks(row, OPENED + SIX_WEEKS)[4] == ("✓", "six weeks")
    assert marks(row, OPENED + SIX_WEEKS - 1)[4][0] == "–"


@pytest.mark.parametrize("kind, said", [("continue", "to continue it"), ("reuse", "to reuse the name"),
                                        ("<x>", "&lt;x&gt;")])
def test_a_card_says_who_asks_whom_for_what(kind, said):
    card = page.case_card(row_at(OPENED + 5, kind=kind, candidate="<b>"), OPENED + 5)
    assert f"<p>&lt;b&gt; asks ann for it, {said}. " in card
    assert "3 attempts." in card and f"Opened <span class=\"when\">{moment(OPENED)}</span>" in card
    assert f"ready from {due(OPENED + SIX_WEEKS)}" in card and "class=ready" not in card


def test_a_card_of_a_case_that_is_ready_is_marked():
    card = page.case_card(READY, OPENED)
    assert '<article id="case-frob" data-find class=ready>' in card and '<span class="tag yes">ready now</span>' in card
    assert '<span class="tag">not begun</span>' in page.case_card(row_at(OPENED, first=None), OPENED)


def test_no_text_turns_the_line():
    row = row_at(OPENED, why="a\u202eb", candidate="\u2066")
    assert "a\\u202eb" in page.case_card(row, OPENED) and "\\u2066 asks" in page.case_card(row, OPENED)


@catches("indexctl/cases.py", "return row.first is None or row.sent < FEWEST_SENT or not all(map(row.has, MEANS))",
         "return row.first is None",
         also=["indexctl/test_unit_cases.py::test_a_case_that_lacks_attempts_is_ready_at_no_moment"])
def test_a_card_is_ready_at_no_moment_if_attempts_lack():
    card = page.case_card(row_at(OPENED + 2 * SIX_WEEKS, pages=False), OPENED)
    assert '<span class="tag">lacks attempts</span>' in card


def test_a_moment_is_not_broken():
    assert page.unbroken("a < 2026-01-02 03:04 UTC") == 'a &lt; <span class="when">2026-01-02 03:04 UTC</span>'


def test_a_table_has_a_cell_for_each_head_and_numbers_to_sort_by():
    table = "".join(page.table_of("k", ["a", "b"], [["x", ("1 KiB", 1024)]], "x"))
    assert re.findall('<th scope="(col|row)" role="(.*?)">(.*?)</th>', table) == [
        ("col", "columnheader", "a"), ("col", "columnheader", "b"), ("row", "rowheader", "x")]
    assert '<td role="cell" data-head="b" class="number" data-key="1024">1 KiB</td></tr>' in table
    assert table.endswith('<p class="none soft" hidden>None.</p>')
    assert "".join(page.table_of("k", ["a"], [], "")) == '<p class="none soft">None.</p>'


@pytest.mark.parametrize("charge, kind, width", [(79, "", "79.0"), (80, "high", "80.0"), (94, "high", "94.0"),
                                                 (95, "top", "95.0"), (100, "top", "100.0"), (150, "top", "100.0")])
def test_a_bar_is_coloured_from_eighty_and_from_ninety_five_percent_on(charge, kind, width):
    part = "".join(page.quota_part(overview_of(held(charge=charge, quota=100))))
    assert f'<span class="bar {kind}"><i style="width:{width}%"></i></span>{charge:.1f} %' in part
    assert f'data-key="{charge:.3f}"' in part and 'data-key="100"' in part


def test_owners_are_listed_with_their_numbers():
    part = "".join(page.owner_part(overview_of(held("<a>", owners=["bob"]), held("b", owners=["bob", "ann"]))))
    assert '<span class="tag alone">&lt;a&gt;</span><span class="tag">b</span>' in part
    assert re.findall('data-key="(.*?)"', part) == ["1", "0", "2", "1"] and part.index(">ann<") < part.index(">bob<")


def test_names_that_look_alike_are_shown_with_their_owners():
    part = "".join(page.alike_part(overview_of(held("frob", owners=["bob", "<x>"]), held("fro-b2"), held("other"))))
    assert re.sub("<[^<>]*>", "|", part.partition("<p")[0]).split("|") == [
        "", "", "", "", "", "fro-b2", " ", "ann", "", "", "", "frob", " ", "bob, &lt;x&gt;", "", "", "\n", "", ""]
    assert part.count("<li data-find>") == 1 and part.endswith('<p class="none soft" hidden>None.</p>')
    assert "".join(page.alike_part(overview_of(held("frob"), held("other")))) == '<p class="none soft">None.</p>'


@catches("indexctl/page.py", '{"".join(map(shown, names[:MOST_ALIKE]))}', '{"".join(map(shown, names))}')
def test_of_many_names_that_look_alike_some_are_shown():
    names = [held(f"frob-{at:02}", owners=[f"user{at}"]) for at in range(15)]
    part = "".join(page.alike_part(overview_of(*names)))
    assert part.count("<b>") == 12 and "<b>frob-11</b>" in part and "<span>and 3 more</span>" in part
    assert "more" not in "".join(page.alike_part(overview_of(*names[:12])))


def test_tiles_count_names_cases_and_quotas():
    names = [held("a", charge=80, quota=100), held("b", charge=79, quota=100, owners=["x", "y"]), held("c")]
    text = "".join(page.page_of("https://packages.example:8443", overview_of(*names), [READY, row_at(OPENED)], OPENED))
    assert re.findall("<b>(\\d+)</b>(.*?)</li>", text) == [
        ("3", "held names"), ("2", "open cases"), ("1", "ready for a transfer"), ("1", "quotas at 80 % or above"),
        ("2", "names with one owner")]
    assert text.count("packages.example:8443") == 2 and f"as of {moment(OPENED)}" in text


def test_the_policy_has_the_digest_of_the_script():
    text = "".join(page.page_of("https://h", quotas.Overview(), [], OPENED))
    script = re.search("<script>(.*)</script>", text, re.S)[1]
    digest = base64.b64encode(hashlib.sha256(script.encode()).digest()).decode()
    assert f"script-src 'sha256-{digest}'" in html.unescape(text)


def test_a_page_is_put_whole_where_everybody_reads_it(tmp_path):
    path = tmp_path / "index.html"
    path.write_text("before")
    page.put_whole(str(path), ["\u00e9", "x"])
    assert path.read_text(encoding="utf-8") == "\u00e9x" and path.stat().st_mode & 0o777 == 0o644
    assert os.listdir(tmp_path) == ["index.html"]


@catches("indexctl/page.py", 'with open(part, "x", encoding="utf-8") as out:',
         'with open(part, "w", encoding="utf-8") as out:',
         ("indexctl/page.py", "with suppress(FileNotFoundError):", "while False:"))
def test_a_link_beside_a_page_leads_nowhere(tmp_path):
    path, mine = tmp_path / "index.html", tmp_path / "mine"
    mine.write_text("mine")
    mine.chmod(0o600)
    (tmp_path / "index.html.part").symlink_to(mine)
    page.put_whole(str(path), ["text"])
    assert (mine.read_text(), mine.stat().st_mode & 0o777) == ("mine", 0o600)
    assert path.read_text() == "text" and not path.is_symlink()


def test_a_page_beside_which_a_file_can_t_be_removed_is_not_written(tmp_path):
    (tmp_path / "x.part").mkdir()
    with pytest.raises(Stop, match="x can't be written: "):
        page.put_whole(str(tmp_path / "x"), ["text"])
    assert os.listdir(tmp_path) == ["x.part"]


def test_a_page_is_on_the_disk_before_it_is_in_its_place(tmp_path, monkeypatch):
    steps, sync, replace = [], os.fsync, os.replace
    monkeypatch.setattr(os, "fsync", lambda file: steps.append("sync") or sync(file))
    monkeypatch.setattr(os, "replace", lambda *it: steps.append("replace") or replace(*it))
    page.put_whole(str(tmp_path / "x"), ["text"])
    assert steps == ["sync", "replace"]


def test_a_page_that_can_t_be_put_leaves_nothing_beside(tmp_path, monkeypatch):
    def fail(*_):
        raise OSError(28, "No space left on device")
    monkeypatch.setattr(os, "replace", fail)
    (tmp_path / "x").write_text("before")
    with pytest.raises(Stop, match="x can't be written: No space left on device. What was there stays.") as end:
        page.put_whole(str(tmp_path / "x"), ["text"])
    assert end.value.status == WRONG and os.listdir(tmp_path) == ["x"] and (tmp_path / "x").read_text() == "before"


def test_a_page_that_is_interrupted_leaves_nothing_beside(tmp_path):
    (tmp_path / "x").write_text("before")

    def pieces():
        yield "a piece"
        raise KeyboardInterrupt
    with pytest.raises(KeyboardInterrupt):
        page.put_whole(str(tmp_path / "x"), pieces())
    assert os.listdir(tmp_path) == ["x"] and (tmp_path / "x").read_text() == "before"


@pytest.mark.parametrize("count", [1, 49, 50, 51, 100, 101])
def test_a_table_comes_in_parts(count):
    pieces = list(page.table_of("k", ["a"], ([f"row{at}"] for at in range(count)), range(count)))
    assert re.findall("row[0-9]+", "".join(pieces)) == [f"row{at}" for at in range(count)]
    assert [it.count("<tr ") for it in pieces if it.startswith("<tbody")] == [
        min(50, count - at) for at in range(0, count, 50)]
