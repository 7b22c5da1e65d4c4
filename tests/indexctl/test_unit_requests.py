"""What lists all requests lists each request of the rules: a list that lacks one fails nothing else."""
from __future__ import annotations

import glob
import re

from indexctl import replays
from support import workload
from support.compare.choice import Chooser
from support.model import formats, rules
from support.places import TOP
from support.planted import catches

REQUESTS = {*rules.REFUSALS_OF}
# the refusal of what only the office may ask for
NOT_THE_OFFICE = 3
DO = re.compile(r'(?:\bdo=|"do": |each_name\(args, )"(\w+)"|desk\.(delete)\(')


@catches("indexctl/replays.py", '"record_attempt", "transfer",', '"transfer",')
def test_a_replay_knows_what_only_the_office_may_ask_for():
    assert {*replays.OFFICE_ASKS} == {it for it in REQUESTS if NOT_THE_OFFICE in rules.REFUSALS_OF[it]}


@catches("indexctl/replays.py", 'FILE_ASKS = ("upload", "delete", "ban_file")', 'FILE_ASKS = ("upload", "delete")')
def test_a_replay_knows_which_requests_name_a_file():
    assert {*replays.FILE_ASKS} == {it for it, keys in formats.KEYS.items() if "file" in keys.split()}


@catches("indexctl/commands/releases.py", '{"do": "unyank", "name": name, "release": release}',
         '{"do": "yank", "name": name, "release": release}')
def test_indexctl_asks_for_each_request():
    """Its commands do: what only looks, elsewhere, asks for some that can't change anything."""
    asked: set = set()
    for path in glob.glob(f"{TOP}/indexctl/commands/*.py"):
        with open(path, encoding="utf-8") as kept:
            asked |= {one or other for one, other in DO.findall(kept.read())}
    assert REQUESTS <= asked


@catches("tests/support/workload.py", '    of_name("office", "allow", "spam"),', "")
def test_kills_and_crashes_meet_each_request():
    assert REQUESTS <= {asked["do"] for _, asked, *_ in workload.REQUESTS}


@catches("tests/support/compare/choice.py", '"close_case": 1, "answer_case": 1,', '"close_case": 1,')
def test_each_request_is_among_the_random_ones():
    assert {*Chooser.OFTEN} == {*REQUESTS, "standing"} == {*formats.KEYS}
