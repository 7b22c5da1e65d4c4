"""The README's two commands, and nothing else, on a Debian 12 that has what the README asks for: first as a user, then
as root. By hand as root, with `--bare` and `-s`, which shows the minutes: they mean something on an idle machine."""
from __future__ import annotations

import re

import pytest
from support.bare_debian import USER, done, make_root
from support.debian_wheels import upload_all
from support.needed import want_command
from support.places import TOP

pytestmark = [pytest.mark.by_hand("bare"), pytest.mark.slow, pytest.mark.timeout(7_200)]
PATIENCE = 3_000
# of tests that a user's machine lacks root or a device for, when it has the packages
MOST_LEFT_OUT = 60


@pytest.fixture(scope="module")
def bare(tmp_path_factory):
    want_command("mmdebstrap", "mmdebstrap")
    return make_root(str(tmp_path_factory.mktemp("bare")))


@pytest.mark.parametrize("user, left_out", [(USER, None), ("root", None), (USER, MOST_LEFT_OUT)],
                         ids=["a_user", "root", "a_user_with_the_packages"])
def test_the_two_commands_of_the_readme(bare, index, tmp_path, looked, user, left_out):
    with open(f"{TOP}/README.md", encoding="utf-8") as kept:
        page = kept.read()
    # in the place of pypi.org
    url = upload_all(index, str(tmp_path))
    for command, block, last in (("tools/try", "```sh\ntools/try\n```", "Successfully installed"),
                                 ("tests/run --quick", "| `tests/run --quick` |", " passed, 0 failed")):
        looked(block in page, command)
        ended = done(bare, user, url, command, PATIENCE)
        print(f"\n{command} as {user}: {ended.clock:.1f} min, {ended.processors:.1f} of processors, "
              f"load {ended.load:.1f}", flush=True)
        failed = [it for it in ended.output.splitlines() if it.startswith(("FAILED", "ERROR"))]
        assert ended.status == 0 and last in ended.output, failed or ended.output[-3_000:]
    looked(re.fullmatch(r"\d+ passed, 0 failed", ended.output.splitlines()[-1]), ended.output[-600:])
    not_run = re.search(r"^NOT RUN: (\d+) tests", ended.output, re.M)
    looked(left_out is None or not not_run or int(not_run[1]) <= left_out, ended.output[-6_000:])
