"""What people do most, by as few commands as can be, and without a command that is refused on the way."""
from __future__ import annotations

import re
import sys
import time

import pytest
from support.clients.page import read_recipes
from support.clients.world import PAGE
from support.indexctl.control import DAY, Control, assert_ends, filled, line, upload_line, user_lines
from support.packages import make_wheel, wheel_files, wheel_name
from support.places import BIN
from support.planted import catches
from support.server.waits import wait_for
from support.serving import Index, Running

pytestmark = pytest.mark.xdist_group("tasks")
FILES = "frob-1.0-py3-none-any.whl", "frob-1.0.tar.gz"
TEXTS = {"kind": "reuse", "contact": "a", "work": "b", "why": "c"}
MOST = {"a first upload": 5, "a pipeline": 2, "a lost token": 1, "a wrong upload": 2, "a leaked secret": 2,
        "who leaves": 1, "a typosquat": 2, "a full quota": 1, "who owns what": 1, "a yank": 1, "an abandoned name": 6}
HIS, SHARED = {f"walters-{at}" for at in range(10)}, {f"shared-{at}" for at in range(10)}


def lines():
    yield from user_lines("ann", "bob", "eve", "walter")
    for name in ("frob", "spam", *HIS, *SHARED):
        yield line(1, "walter" if name in HIS else "ann", "claim", name=name)
    for name in SHARED:
        yield line(1, "ann", "add_owner", name=name, user="walter")
    yield line(1, "office", "set_quota", name="spam", quota=10)
    yield line(1, "eve", "claim", name="fr0b")
    for file in FILES:
        yield upload_line(2, "ann", file, 5)
    yield upload_line(2, "eve", "fr0b-1.0.tar.gz", 5)
    yield line(3 * DAY, "walter", "open_case", name="spam", **TEXTS)


class Walk:
    """Somebody who does a task. Each command is counted, and none may be refused."""

    def __init__(self, by, front, index) -> None:
        self.by, self.front, self.index, self.count, self.said = by, front, index, 0, ""

    def does(self, text, caller="office"):
        self.count += 1
        ended = self.by.run(*text.split(), caller=caller)
        assert ended.returncode == 0, (text, ended.stdout)
        self.said = ended.stdout
        return ended.stdout

    def status(self, file):
        return self.front.ask("GET", f"/files/{file.partition('-')[0]}/{file}")[0]


@pytest.fixture
def walk(program, open_folder, certificate, folder):
    """An index behind nginx, which has fetched the files, with what takes removed ones out of it."""
    from support.server.front import Front
    path = filled(program, f"{folder}/tasks.db", lines())
    name = folder.rpartition("/")[2]
    with Index(program, path=path) as index, Front(f"{open_folder}/{name}", certificate, index.port) as front:
        made = Walk(Control(folder, front.url, certificate), front, index)
        assert [made.status(it) for it in FILES] == [200, 200]
        words = ["--place", f"{folder}/place", "--log", f"{front.folder}/index-changes.log", "--cache",
                 f"{front.folder}/cache/index-files"]
        with open(f"{folder}/followed", "w", encoding="utf-8") as said:
            with Running([sys.executable, f"{BIN}/index-uncache-follow", *words], stdout=said, stderr=said):
                yield made


def test_a_first_upload_takes_five_lines_of_the_page():
    """tests/clients runs them, and none is refused."""
    recipes, _ = read_recipes(PAGE)
    blocks = "".join(recipes[it].text for it in ("indexctl and a token", "Upload"))
    assert len(re.findall("[^;\n]+", blocks)) <= MOST["a first upload"]


def test_a_leaked_secret_is_away(walk):
    """What the owner's command prints is what the office bans."""
    files = re.findall(r"^frob-\S+", walk.does("files frob"), re.M)
    walk.does(f"file ban {' '.join(files)} --yes")
    assert walk.count <= MOST["a leaked secret"]
    assert wait_for(lambda: [walk.status(it) for it in FILES] == [404, 404], seconds=60)


@catches("indexctl/commands/users.py", 'desk.change(f"case of {name}: close", {"do": "close_case", "name": name})',
         "pass")
@pytest.mark.slow
def test_who_leaves_owns_nothing_and_asks_for_nothing(walk):
    walk.does("user leave walter --to bob --yes")
    assert walk.count <= MOST["who leaves"]
    assert "spam" in walk.said and walk.by.rows("owned-by", "walter") == []
    assert {it["name"] for it in walk.by.rows("owned-by", "bob")} == HIS | SHARED
    assert SHARED < {it["name"] for it in walk.by.rows("owned-by", "ann")}
    assert walk.by.rows("case", "list") == []
    assert walk.by.run("token", "check", caller="walter").returncode == 1


def test_a_pipeline_uploads_as_a_user_of_its_own(walk, folder):
    token = re.search("this once: ([0-9a-f]{64})", walk.does("user add cibuild"))[1]
    walk.does("owner add cibuild frob", caller="ann")
    assert walk.count <= MOST["a pipeline"]
    make_wheel(f"{folder}/{wheel_name('frob', '2.0')}", wheel_files("frob", "2.0", ""))
    walk.does(f"upload {folder}/{wheel_name('frob', '2.0')}", caller=token)


def test_a_lost_token_is_another_at_once(walk):
    token = re.search("this once: ([0-9a-f]{64})", walk.does("user rotate ann"))[1]
    assert walk.count <= MOST["a lost token"]
    assert "user" in walk.does("token check", caller=token)
    assert walk.by.run("token", "check", caller="ann").returncode == 1


def test_a_wrong_upload_is_taken_away_and_uploaded_anew(walk, folder):
    make_wheel(f"{folder}/{wheel_name('frob', '1.1')}", wheel_files("frob", "1.1", ""))
    walk.does(f"file delete {FILES[0]} --yes", caller="ann")
    walk.does(f"upload {folder}/{wheel_name('frob', '1.1')}", caller="ann")
    assert walk.count <= MOST["a wrong upload"]
    assert wait_for(lambda: walk.status(FILES[0]) == 404, seconds=60)


@catches("indexctl/page.py", "groups = alike(found.owners)", "groups: List[List[str]] = []",
         also=["indexctl/test_unit_page.py::test_names_that_look_alike_are_shown_with_their_owners"])
def test_a_typosquat_is_seen_and_taken_away(walk, folder):
    walk.does(f"page {folder}")
    with open(f"{folder}/index.html", encoding="utf-8") as page:
        text = re.sub("<[^<>]*>", "", page.read().partition("Names that look alike</h2>")[2])
    assert re.search("fr0b evefrob ann$", text, re.M), text[:300]
    walk.does("name prohibit fr0b --yes")
    assert walk.count <= MOST["a typosquat"]
    assert wait_for(lambda: walk.status("fr0b-1.0.tar.gz") == 404, seconds=60)


@catches("indexctl/refusals.py", 'if answer == "NoProject" and name and row.get("do") != "upload":',
         'if answer == "NoProject" and not row:',
         also=["indexctl/test_unit_refusals.py::test_who_mistypes_a_name_is_not_led_to_claim_it"])
@pytest.mark.parametrize("words", ["file delete forb-1.0.tar.gz", "release yank forb 1.0 --reason x", "quota show forb",
                                   "owner add bob forb", "name relinquish forb --yes", "case answer forb"])
def test_a_slip_in_a_name_leads_nobody_to_claim_it(walk, words):
    ended = walk.by.run(*words.split(), caller="ann")
    assert_ends(ended, 1, "Nobody holds forb. Did you mean `frob`?")
    assert "claim" not in ended.stdout


def test_a_full_quota_says_so_and_is_raised(walk, folder):
    wheel = f"{folder}/{wheel_name('spam', '1.0')}"
    make_wheel(wheel, wheel_files("spam", "1.0", ""))
    assert_ends(walk.by.run("upload", wheel, caller="ann"), 1, "OverQuota", "`indexctl files spam` lists them")
    walk.does("quota set spam +1GiB")
    assert walk.count <= MOST["a full quota"] and "1.0 GiB" in walk.said
    walk.does(f"upload {wheel}", caller="ann")


@catches("indexctl/commands/cases.py", "sent=not args.not_sent", "sent=args.not_sent")
@pytest.mark.slow
def test_an_abandoned_name_passes_after_43_days(program, folder):
    """From the candidate's first command to the transfer, and each of them is accepted."""
    path, now, count = filled(program, f"{folder}/tasks.db", lines()), int(time.time()), 0
    asked = [["open", "frob", "--kind", "continue", "--contact", "a", "--work", "b", "--why", "c"],
             *(["attempt", "frob", it] for it in ("profile", "author", "pages")),
             ["transfer", "frob", "--quiet", "--yes"]]
    for words in asked:
        is_last = words[0] == "transfer"
        with Index(program, path=path, at=now - (0 if is_last else 43 * DAY)) as index:
            by = Control(folder, f"http://127.0.0.1:{index.port}")
            assert_ends(by.run("case", *words, caller="bob" if words[0] == "open" else "office"), 0)
            count += 1
            assert by.rows("who", "frob")[0]["owners"] == ["bob" if is_last else "ann"]
    assert count <= MOST["an abandoned name"]


@catches("indexctl/ends.py", "REFUSED, WRONG, UNREACHED, INTERRUPTED, PIPE_CLOSED = 1, 2, 3, 130, 141",
         "REFUSED, WRONG, UNREACHED, INTERRUPTED, PIPE_CLOSED = 1, 2, 1, 130, 141")
@pytest.mark.slow
def test_what_is_away_and_a_wrong_token_end_with_their_status(walk):
    assert_ends(walk.by.run("name", "claim", "x", caller="nobody"), 1, "BadToken")
    for it, said in ((walk.index, "503 Unavailable"), (walk.front, "refused")):
        it.process.terminate()
        it.process.wait(60)
        assert_ends(walk.by.run("who", "frob", "--again", "0"), 3, said, "Run this again later")


@pytest.mark.parametrize("words, said", [("who frob", "ann"), ("owned-by ann", "spam"), ("status frob", FILES[0]),
                                         ("names", "walters-9")])
def test_who_owns_what_is_one_command(walk, words, said):
    assert said in walk.does(words, caller="ann") and walk.count <= MOST["who owns what"]


def test_a_yank_is_one_command(walk):
    walk.does("release yank frob 1.0 --reason bad", caller="ann")
    assert walk.count <= MOST["a yank"]
    assert wait_for(lambda: walk.by.rows("releases", "frob")[0]["yanked"] == "bad", seconds=60)
