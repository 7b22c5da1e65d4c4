"""Each command of docs/users/OWNING.md, run in the order of the page by an owner who has the settings that it shows,
and those that stand between the blocks of docs/users/USING.md."""
from __future__ import annotations

import datetime
import os
import re
import shlex
import shutil
import subprocess
import sys

import pytest
from support.clients.page import read_recipes
from support.indexctl.control import Control, assert_ends, digest, environment, put
from support.packages import make_source
from support.places import TOP
from support.planted import catches
from support.serving import Index

PAGE, USING = f"{TOP}/docs/users/OWNING.md", f"{TOP}/docs/users/USING.md"
COMMAND = re.compile(r"`indexctl ([a-z][^`\n]*)`")
CASE = ("case", "open", "frob", "--kind", "reuse", "--contact", "c", "--work", "w", "--why", "y")
# what others do before a command of the page, and what the command then says
YANK = 'release yank frob 1.0 --reason "loses data"'
BEFORE = {YANK: ("cibuild", ("owner", "add", "ann", "frob")), "case answer frob": ("bob", CASE)}
SAID = {
    "token check": "", "doctor": "the index answers", "token new": "digest", "name claim frob": "frob",
    "upload dist/": "1 of 1 files are there",
    "status frob": "frob-1.0.tar.gz", "quota show frob": "1.0 GiB", "owner add cibuild frob": "",
    "owner remove ann frob": "", YANK: "", "files frob": "frob-1.0.tar.gz",
    "release delete frob --keep 10 --matching '*.dev*'": "There is nothing to delete.",
    "file delete frob-1.0.tar.gz": "index-uncache", "case answer frob": "", "name relinquish frob": "",
}
ASKS = "name relinquish", "file delete"
TIMER, SEARCH = "A timer for nightly builds", "search WORD"
# of USING, and of these what needs no token
SAID_OF_USING = {"name claim frob": "claim frob", "status frob": "owners  ann", "files frob": "frob-1.0.tar.gz",
                 "releases frob": "1.0", SEARCH: "", "doctor": "the index answers"}


def build(folder: str) -> str:
    """The one file of indexctl."""
    made = f"{folder}/one-file"
    subprocess.run([sys.executable, f"{TOP}/indexctl/build.py", made], check=True, timeout=60)
    return made


def typed() -> list[str]:
    """The commands of the page: those of its table first, in their order."""
    with open(PAGE, encoding="utf-8") as page:
        text = page.read()
    found = [it for it in COMMAND.findall(text) if it != "--help"]
    rows = COMMAND.findall("\n".join(it for it in text.splitlines() if it.startswith("|")))
    return list(dict.fromkeys([it for it in found if it not in rows and it.startswith("token")] + rows + found))


@pytest.fixture
def by(program, folder):
    """An owner with the settings of the page and nothing in the environment, beside an office."""
    recipe = read_recipes(PAGE)[0]["Settings of indexctl"]
    with Index(program) as index:
        url = f"http://127.0.0.1:{index.port}"
        office = Control(folder, url)
        for user in ("ann", "bob", "cibuild"):
            assert_ends(office.run("user", "add", user, "--digest", digest(user)), 0)
        put(f"{office.home}/.config/indexctl.ini", recipe.text.replace("https://packages.example", url))
        put(f"{office.home}/.config/index-token", "ann\n")
        os.mkdir(f"{folder}/dist")
        make_source(f"{folder}/dist/frob-1.0.tar.gz", "frob", "1.0", {})
        yield office


def test_an_owner_does_all_that_the_page_says(by, folder, looked):
    for text in typed():
        caller, words = BEFORE.get(text, (None, ()))
        if caller:
            assert_ends(by.run(*words, caller=caller), 0)
        words = [f"{folder}/dist" if it == "dist/" else it for it in shlex.split(text)]
        yes = ["--yes"] if text.startswith(ASKS) else []
        ended = by.run(*words, *yes, caller=None, INDEX_URL=None)
        looked(ended.returncode == 0 and SAID[text] in ended.stdout, text, ended.stdout)
    assert_ends(by.run("who", "frob"), 0, "free")
    with open(f"{by.home}/index-record.jsonl", encoding="utf-8") as record:
        looked(sum(1 for _ in record) == 8, "the changes in the record")


def dated(*days):
    """Nightly builds of so many days ago, with one that was never given a date and a final one."""
    today = datetime.datetime.now(datetime.timezone.utc)
    return ["1.0", "1.1.dev0", *(f"1.1.dev{today - datetime.timedelta(days=it):%Y%m%d}" for it in days)]


@catches("indexctl/room.py", "if day and (today - day).days > days]", "if not day or (today - day).days > days]",
         also=["indexctl/test_unit_room.py::test_only_what_is_older_by_its_version_goes"])
def test_the_timer_of_the_page_deletes_old_nightly_builds(by, folder):
    """Its block is pasted where `systemctl` writes down what it is asked for; then its unit is read and run."""
    put(f"{folder}/bin/systemctl", '#!/bin/sh\necho "$@" >> "$HOME/asked"\n', 0o755)
    path = f"{folder}/bin:{os.environ['PATH']}"
    block = read_recipes(PAGE)[0][TIMER].text
    for _ in range(2):
        subprocess.run(["sh", "-e", "-c", block], check=True, timeout=60, env=environment(HOME=by.home, PATH=path))
    with open(f"{by.home}/asked", encoding="utf-8") as asked:
        assert asked.read().splitlines() == 2 * ["--user daemon-reload", "--user enable --now frob-room.timer"]
    units = f"{by.home}/.config/systemd/user"
    if shutil.which("systemd-analyze"):
        found = subprocess.run(["systemd-analyze", "--user", "verify", f"{units}/frob-room.timer"], text=True,
                               stdout=subprocess.PIPE, stderr=subprocess.STDOUT, env=environment(HOME=by.home),
                               timeout=60)
        assert "frob-room" not in found.stdout, found.stdout
    run = environment(HOME=by.home, INDEX_URL=None)
    assert_ends(by.run("name", "claim", "frob", caller=None, INDEX_URL=None), 0)
    releases = dated(*range(20), 31, 32, 40)
    for release in releases:
        make_source(f"{folder}/dist/frob-{release}.tar.gz", "frob", release, {})
    assert_ends(by.run("upload", f"{folder}/dist", caller=None, INDEX_URL=None), 0)
    with open(f"{units}/frob-room.service", encoding="utf-8") as unit:
        line = re.findall("^ExecStart=(.*)$", unit.read(), re.M)[0].replace("%h", by.home)
    shutil.copy(build(folder), f"{by.home}/indexctl")
    ended = subprocess.run(shlex.split(line), stdout=subprocess.PIPE, stderr=subprocess.STDOUT, timeout=60, text=True,
                           env=run, stdin=subprocess.DEVNULL)
    assert ended.returncode == 0 and "have no date: 1.1.dev0." in ended.stdout, ended.stdout
    left = {row["release"] for row in by.rows("releases", "frob", caller=None, INDEX_URL=None)}
    assert set(releases) - left == {*dated(31, 32, 40)[2:]}


def test_what_using_names_between_its_blocks_works(by, folder, looked):
    with open(USING, encoding="utf-8") as page:
        found = {*COMMAND.findall(page.read())}
    looked(found == {*SAID_OF_USING}, found)
    ended = by.run("name", "claim", "frob", caller=None, INDEX_URL=None)
    looked(ended.returncode == 0 and SAID_OF_USING["name claim frob"] in ended.stdout, ended.stdout)
    assert_ends(by.run("upload", f"{folder}/dist", caller=None, INDEX_URL=None), 0)
    os.remove(f"{by.home}/.config/index-token")
    put(f"{by.home}/.config/indexctl.ini", f"[default]\nurl = {by.setting['INDEX_URL']}\n")
    for text in sorted(found - {"name claim frob"}):
        ended = by.run(*shlex.split(text), caller=None, INDEX_URL=None)
        looked(ended.returncode == 0 and SAID_OF_USING[text] in ended.stdout, text, ended.stdout)
