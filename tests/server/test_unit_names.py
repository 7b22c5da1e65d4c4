"""Names by the grammar of the programs, beside the model of the tests, which has one of its own."""
import datetime
import zoneinfo

import pytest
from hypothesis import example, given
from hypothesis import strategies as st
from support.library import database, hints, names
from support.model import names as model
from support.planted import catches

EPOCH, LAST_DAY = datetime.datetime(1970, 1, 1), datetime.datetime(9999, 12, 30)
# here the clock goes from 2 to 3 in a night of March, and from 2 back to 1 in one of November
NEW_YORK = zoneinfo.ZoneInfo("America/New_York")
# what names are made of, with what is none of it, so that a slip at either end of a class shows
SIGNS = st.sampled_from("aZ09._-+!é \n/")
TEXTS = st.text(SIGNS, max_size=12)
PARTS = st.text(st.sampled_from("aZ9._+!"), min_size=0, max_size=6)
FILES = st.builds(lambda parts, end: "-".join(parts) + end, st.lists(PARTS, min_size=1, max_size=7),
                  st.sampled_from([".whl", ".tar.gz", ".whlx", ".zip", ""]))


@given(TEXTS)
def test_a_name_is_read_as_the_model_reads_it(text):
    assert (names.normal(text) if names.is_name(text) else None) == model.read_name(text)


@given(TEXTS)
def test_a_version_is_read_as_the_model_reads_it(text):
    assert (text.lower() if names.is_version(text) else None) == model.read_release(text)


@given(st.one_of(FILES, TEXTS))
def test_a_file_name_is_read_as_the_model_reads_it(text):
    found = names.read_file_name(text)
    assert (found and (found.project, found.release)) == model.read_file_name(text)


@given(TEXTS)
def test_a_user_is_read_as_the_model_reads_it(text):
    assert names.is_user(text) == model.is_user_id(text)


@given(TEXTS)
def test_a_normal_form_is_its_own(text):
    assert names.normal(names.normal(text)) == names.normal(text)


@pytest.mark.parametrize("text, is_well", [("f" * 128, True), ("f" * 129, False), ("-f", False), ("f-", False),
                                           ("", False), ("f\n", False), ("f b", False)])
def test_a_name_has_128_bytes_at_most(text, is_well):
    assert names.is_name(text) is is_well


@pytest.mark.parametrize("text, is_well", [("1" * 64, True), ("1" * 65, False), ("1!0+a", True), ("1-0", False),
                                           ("1.", False), ("", False), ("1\n", False)])
def test_a_version_has_64_bytes_at_most(text, is_well):
    assert names.is_version(text) is is_well


@pytest.mark.parametrize("text, is_well", [("a" * 32, True), ("a" * 33, False), ("A", False), ("", False),
                                           ("a\n", False)])
def test_a_user_has_32_bytes_at_most(text, is_well):
    assert names.is_user(text) is is_well


@pytest.mark.parametrize("file, project, release, is_wheel", [
    ("Frob_Nest-1.0RC1-py3-none-any.whl", "frob-nest", "1.0rc1", True), ("a-b-1.tar.gz", "a-b", "1", False),
    ("frob-1.0-1x-py3-none-any.whl", "frob", "1.0", True), ("f" * 128 + "-1.tar.gz", "f" * 128, "1", False),
    ("f-" + "1" * 64 + ".tar.gz", "f", "1" * 64, False), ("f-1-p-n-" + "y" * 243 + ".whl", "f", "1", True)])
def test_what_a_file_name_spells(file, project, release, is_wheel):
    found = names.read_file_name(file)
    assert (found.project, found.release, found.is_wheel) == (project, release, is_wheel)


@pytest.mark.parametrize("file", [
    "frob-1.0-x1-py3-none-any.whl", "f" * 129 + "-1.tar.gz", "f-" + "1" * 65 + ".tar.gz",
    "f-1-p-n-" + "y" * 244 + ".whl", "frob-1.0.zip", "frob-1.0.tar.gz\n", "f-1-p-n-a.whlx", "f-1-p-n-a.whl\n",
    "frob.tar.gz", "f-1-p-n.whl", "a-b-1-p-n-a-q.whl"])
def test_what_is_no_file_name(file):
    assert names.read_file_name(file) is None


@catches("server/lib/package_index/database.py", "    except ValueError:", "    except KeyError:",
         case="index-20261131T031500Z.db-None")
@pytest.mark.parametrize("copy, moment", [
    ("/x/index-20260102T030405Z.db", "2026-01-02T03:04:05+00:00"),
    ("index-20260102T030405Z.db", "2026-01-02T03:04:05+00:00"),
    ("index-20260102T030405Z.dbx", None), ("xindex-20260102T030405Z.db", None), ("copy.db", None),
    # as a person may name one whose clock was wrong
    ("index-20261131T031500Z.db", None), ("index-20270229T031500Z.db", None), ("index-20260102T243000Z.db", None),
    ("index-20280229T031500Z.db", "2028-02-29T03:15:00+00:00"), ("index-00000000T000000Z.db", None)])
def test_a_copy_tells_its_moment_by_its_name(copy, moment):
    found = database.moment_of(copy)
    assert (found and found.isoformat()) == moment


@given(st.datetimes(min_value=EPOCH, max_value=LAST_DAY, timezones=st.timezones()))
@example(datetime.datetime(2021, 3, 14, 2, 30, tzinfo=NEW_YORK))
@example(datetime.datetime(2021, 11, 7, 1, 30, tzinfo=NEW_YORK))
@example(datetime.datetime(2021, 11, 7, 1, 30, fold=1, tzinfo=NEW_YORK))
def test_the_name_of_a_copy_is_read_back_to_the_second(moment):
    """By the seconds since 1970: an hour that a clock shows twice, or never, is equal to none of another zone."""
    found = database.moment_of(f"{database.copy_name(moment)}.db")
    assert found.timestamp() == moment.replace(microsecond=0).timestamp()


def test_a_hint_has_what_is_known_and_leaves_out_what_is_not():
    assert hints.hint("NotOwner", owners="ann, bob", name="frob") == (
        "Only an owner may do this: ann, bob. Ask one of them for `indexctl owner add YOU frob` (add_owner).")
    assert hints.hint("NotOwner") == (
        "Only an owner may do this. Ask one of them for `indexctl owner add YOU ..` (add_owner).")
    assert hints.hint("OverQuota", charge="1 B").startswith("The project's quota is full. Delete")
    assert hints.hint("NameHeld", owners="ann").startswith("It belongs to ann. Ask")
    assert hints.hint("NoSuchRefusal", name="frob") == ""


def test_the_fields_of_a_hint_are_those_in_braces():
    assert hints.fields_of(hints.HINTS["OverQuota"]) == {"charge", "name", "quota"}
    assert hints.fields_of("none") == set()


@pytest.mark.parametrize("refusal", sorted(hints.HINTS))
def test_a_hint_is_a_sentence_that_shows_no_sign_of_a_form(refusal):
    known = {field: "X" for field in hints.fields_of(hints.HINTS[refusal])}
    for text in (hints.hint(refusal), hints.hint(refusal, **known)):
        assert text.endswith((".", "?", "(add_owner).")) and not set("{}[]") & set(text)
        assert not known or "X" in hints.hint(refusal, **known)
