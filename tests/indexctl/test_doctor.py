"""What `indexctl doctor` says of an index behind nginx, and of what keeps a person from it."""
from __future__ import annotations

import json

import pytest
from support.indexctl.control import Control, assert_ends
from support.planted import catches
from support.ports import free_port
from support.serving import Index

pytestmark = pytest.mark.xdist_group("doctor")


@pytest.fixture(scope="module")
def front(program, open_folder, certificate):
    from support.server.front import Front
    with Index(program) as index, Front(f"{open_folder}/doctor", certificate, index.port) as made:
        yield made


def states(by, caller="office", **setting):
    ended = by.run("doctor", "--json", caller=caller, **setting)
    return ended.returncode, {it["what"]: it for it in json.loads(ended.stdout[:len(ended.stdout) - len(ended.stderr)])}


@catches("indexctl/doctor.py", "FEW_DAYS, MOST_OFF = 14, 60", "FEW_DAYS, MOST_OFF = 0, 60",
         also=["indexctl/test_unit_doctor.py::test_a_certificate_that_ends_soon_is_to_be_told"])
def test_of_a_sound_index_each_thing_is_well_but_a_certificate_of_two_days(front, certificate, folder):
    status, found = states(Control(folder, front.url, certificate))
    assert status == 0
    assert {what: it["state"] for what, it in found.items()} == {
        **dict.fromkeys(("address", "proxy", "host", "answer", "clock", "token", "version", "record"), "ok"),
        "certificate": "look"}
    assert "for 1 day" in found["certificate"]["found"] and "office" in found["token"]["found"]


WRONG = {
    "certificate": ({"INDEX_CA": None}, "is not trusted"),
    "token": ({"caller": "nobody"}, "ask the office for another"),
    "record": ({"INDEX_RECORD": "/none/record"}, "can't be written")}


@catches("indexctl/doctor.py", 'if caller == "nobody":', 'if caller == "nobody at all":', case="token",
         also=["indexctl/test_unit_doctor.py::test_a_token_is_of_somebody_or_wrong"])
@catches("indexctl/doctor.py", "if desk.index.trust:", "if False:", case="certificate",
         also=["test_of_a_sound_index_each_thing_is_well_but_a_certificate_of_two_days"])
@catches("indexctl/doctor.py", "if os.path.isdir(path) or not os.access(place, os.W_OK):", "if False:", case="record",
         also=["indexctl/test_unit_doctor.py::test_a_record_is_looked_at_and_not_made"])
@pytest.mark.parametrize("what", WRONG)
def test_what_is_wrong_is_told_with_what_to_do(front, certificate, folder, what):
    setting, said = WRONG[what]
    status, found = states(Control(folder, front.url, certificate), **setting)
    assert status == 1 and found[what]["state"] == "wrong" and said in found[what]["do"], found[what]


@catches("indexctl/doctor.py", 'return Finding(what, WRONG, "", str(end))', 'return Finding(what, WELL, "", "")')
def test_nothing_that_answers_is_told(folder):
    by = Control(folder, f"http://127.0.0.1:{free_port()}")
    assert_ends(by.run("doctor", "--again", "0"), 1, "answer", "wrong", "does not answer now")


@catches("indexctl/doctor.py", 'f"{desk.setting.place} names? If your network needs a proxy, set https_proxy.")',
         'f"{desk.setting.place} names?")')
def test_a_host_that_is_not_there_is_told(folder):
    by = Control(folder, "https://packages.invalid")
    assert_ends(by.run("doctor", "--again", "0"), 1, "host", "packages.invalid", "set https_proxy")
