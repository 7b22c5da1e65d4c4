"""Sizes and moments at their boundaries, without a server."""
import datetime
import re

import pytest
from hypothesis import given
from hypothesis import strategies as st
from indexctl import units
from indexctl.ends import WRONG, Stop


@pytest.mark.parametrize("text, size", [
    ("5GiB", 5 << 30), ("700MB", 700_000_000), ("1.5 KiB", 1_536), ("12", 12), ("0.1kb", 100), ("+1B", 1_001),
    ("2tib", 2 << 40), ("0", 0), ("1b", 1), ("+0", 1_000), ("1KB", 1_000), ("1GB", 10 ** 9), ("1TB", 10 ** 12),
    ("1MiB", 1 << 20), ("0.9", 0)])
def test_a_size_is_whole_bytes(text, size):
    assert units.size_of(text, 1_000) == size and isinstance(units.size_of(text), int)


@pytest.mark.parametrize("text", ["", "GiB", "-1", "1 000", "5GiBx", "1e3", "\u0661", "++1", "1.", ".5", "1  KiB",
                                  "1PiB", " 1"])
def test_what_is_no_size_is_refused(text):
    with pytest.raises(Stop, match="is not a size") as end:
        units.size_of(text)
    assert end.value.status == WRONG


def test_a_size_adds_to_nothing_unless_told():
    assert units.size_of("+7") == 7


@pytest.mark.parametrize("size, text", [
    (0, "0 B"), (1_023, "1023 B"), (1_024, "1.0 KiB"), (1 << 20, "1.0 MiB"), ((1 << 20) - 1, "1024.0 KiB"),
    (1 << 50, "1024.0 TiB"), (1 << 30, "1.0 GiB"), ((1 << 40) - 1, "1024.0 GiB"), (1 << 40, "1.0 TiB"),
    (1_588, "1.6 KiB"), (31_000, "30.3 KiB")])
def test_a_size_in_words(size, text):
    assert units.human(size) == text


@given(st.integers(0, 1 << 60))
def test_a_size_in_words_is_near_the_size(size):
    number, unit = units.human(size).split(" ")
    factor = {"B": 1, "KiB": 1 << 10, "MiB": 1 << 20, "GiB": 1 << 30, "TiB": 1 << 40}[unit]
    assert abs(float(number) * factor - size) <= factor * 0.051
    assert unit == "TiB" or float(number) <= 1024
    assert unit == "B" or float(number) >= 1


@pytest.mark.parametrize("number, text", [(0, "0 files"), (1, "1 file"), (2, "2 files")])
def test_one_is_counted_without_an_s(number, text):
    assert units.counted(number, "file") == text


def test_six_weeks_and_a_year_are_those_of_the_rules():
    assert (units.SIX_WEEKS, units.YEAR) == (42 * 86_400, 365 * 86_400)


@pytest.mark.parametrize("seconds, text", [(0, "1970-01-01 00:00 UTC"), (59, "1970-01-01 00:00 UTC"),
                                           (1_700_000_000, "2023-11-14 22:13 UTC"), (86_399, "1970-01-01 23:59 UTC")])
def test_a_moment_is_told_in_utc_to_the_minute(seconds, text):
    assert units.moment(seconds) == text


@pytest.mark.parametrize("seconds, text", [(0, "00:00"), (1, "00:01"), (60, "00:01"), (61, "00:02"), (119, "00:02"),
                                           (120, "00:02")])
def test_what_is_due_is_rounded_up_to_the_minute(seconds, text):
    assert units.due(seconds) == f"1970-01-01 {text} UTC"


def test_now_is_a_moment_that_is_read_again(monkeypatch):
    monkeypatch.setenv("TZ", "Asia/Tokyo")
    before = int(datetime.datetime.now(datetime.timezone.utc).timestamp())
    assert re.fullmatch(r"\d{4}-\d\d-\d\dT\d\d:\d\d:\d\dZ", units.moment_now())
    now = units.read_moment(units.moment_now())
    assert before <= now <= datetime.datetime.now(datetime.timezone.utc).timestamp()


@pytest.mark.parametrize("text, seconds", [
    ("1970-01-01T00:00:10Z", 10), ("1970-01-01T02:00:10+02:00", 10), ("1970-01-01T00:00:10", 10),
    ("/b/index-19700101T000010Z.db", 10), ("19700101T000010Z", 10), ("1970-01-01T00:00:10+00:00", 10),
    ("1970-01-02", 86_400), ("index-20261124T031500Z.db", 1_795_490_100), ("1970-01-01T00:00:10.900Z", 10)])
def test_a_moment_is_read(text, seconds):
    assert units.read_moment(text) == seconds


@pytest.mark.parametrize("text", ["", "yesterday", "2026-13-01T00:00:00Z", "index-20261340T000010Z.db",
                                  "19700101T000010Z.dbx", "12"])
def test_what_is_no_moment_is_refused(text):
    with pytest.raises(Stop, match="is not a moment") as end:
        units.read_moment(text)
    assert end.value.status == WRONG


@given(st.integers(0, 250_000_000_000 // 60).map(lambda minutes: 60 * minutes))
def test_a_moment_in_words_is_the_moment(seconds):
    assert units.read_moment(units.moment(seconds).replace(" UTC", "+00:00")) == seconds
    assert units.due(seconds) == units.moment(seconds) == units.due(seconds - 59)
