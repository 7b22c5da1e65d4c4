"""What docs/users/NAMES.md says of its examples is what the program reads in them."""
from __future__ import annotations

import hashlib
import json
import re
from collections.abc import Iterable

import pytest
from support.places import TOP
from support.running import run

QUOTED = re.compile(r"`([^`\n]+)`")
BODY = b"abc"
BAD_NAME, BAD_FILE_NAME = "BadName", "BadFileName"


def page() -> str:
    with open(f"{TOP}/docs/users/NAMES.md", encoding="utf-8") as kept:
        return kept.read()


@pytest.fixture
def asked(program):
    """What these lines are answered by, in a new index."""
    def answers(lines: Iterable[dict]) -> list[dict]:
        given = "".join(json.dumps(it) + "\n" for it in lines)
        return [json.loads(it) for it in run(program, "apply", given=given.encode()).stdout.splitlines()]
    return answers


def line(do: str, **keys: str) -> dict:
    """A request of the office."""
    return {"at": 1, "token": "office", "do": do, **keys}


def upload(file: str) -> dict:
    return line("upload", file=file, sha256=hashlib.sha256(BODY).hexdigest(), hex=BODY.hex(), requires_python="")


def test_names_have_the_normal_forms_of_the_page(asked, looked):
    forms, others = re.search(r"^(.+ have the normal form .+)\. The empty text, (.+) are not project names", page(),
                              re.M).groups()
    *spelled, normal, double, its_normal = QUOTED.findall(forms)
    names = [(it, normal) for it in spelled] + [(double, its_normal)]
    looked(len(names) == 4, names)
    for name, form in names:
        found = asked([line("claim", name=name), {"do": "standing", "name": form}])
        looked((found[0]["answer"], found[1]["shown"], found[1]["name"]) == ("accepted", name, form), name, found)
    for name in ["", *QUOTED.findall(others)]:
        looked(asked([line("claim", name=name)])[0].get("name") == BAD_NAME, name)


def test_file_names_are_of_the_release_that_the_page_says(asked, looked):
    found = re.findall(r"^- `(\S+)` is of release `(\S+)` of `([^`]+)`", page(), re.M)
    looked(len(found) == 3, found)
    for file, release, project in found:
        said = asked([line("claim", name=project), upload(file),
                      line("yank", name=project, release=release, reason="")])
        looked([it["answer"] for it in said] == ["accepted"] * 3, file, said)


def test_what_the_page_calls_no_file_name_is_none(asked, looked):
    found = re.findall(r"`([^`\n]+)` is not a file name", page())
    looked(len(found) == 2, found)
    for file in found:
        looked(asked([upload(file)])[0].get("name") == BAD_FILE_NAME, file)


def test_versions_name_the_releases_of_the_page(asked, looked):
    text, release = re.search(r"`(\S+)` names `(\S+)`\.", page()).groups()
    apart = QUOTED.findall(re.search(r"Versions are not parsed: (.+) are three releases", page())[1])
    looked(len(apart) == 3, apart)
    files = [f"frob-{it}.tar.gz" for it in (text, *apart)]
    said = asked([line("claim", name="frob"), *map(upload, files),
                  *(line("yank", name="frob", release=it, reason="x") for it in (release, *apart))])
    looked([it["answer"] for it in said] == ["accepted"] * 9, said)
