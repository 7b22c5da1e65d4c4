"""`indexctl import`, from folders and from servers that lay out their pages as others do, into an index."""
from __future__ import annotations

import json
import os
import shutil
import time
from typing import Dict, List

import pytest
from support.indexctl.control import Control, assert_ends, digest, put
from support.indexctl.sources import (KINDS, PYTHON, artifactory, made_world, nexus, pypi_page, pypiserver, row_of,
                                      serving, wheel_of)
from support.packages import wheel_name
from support.planted import catches
from support.serving import JSON_PAGE, Index, accepted, sha256

WHEEL, SOURCE = wheel_name("frob", "1.0"), "frob-1.0.tar.gz"
REASON = "loses \u2192 data"


@pytest.fixture
def index(program):
    with Index(program) as made:
        yield made


@pytest.fixture
def by(folder, index):
    """indexctl for an index with a user `mover`, who has no names."""
    for user in ("mover", "bob"):
        accepted(index.request(do="add_user", user=user, office=False, token_sha256=digest(user)))
    made = Control(folder, f"http://127.0.0.1:{index.port}")
    made.index = index
    return made


@pytest.fixture
def world(folder):
    return made_world(f"{folder}/made")


def moved(by: Control, *words: str, status: int = 0, said: List[str] = (), **more):
    ended = by.run("import", *words, caller=more.pop("caller", "mover"), **more)
    assert_ends(ended, status, *said)
    return ended


def rows(by: Control, name: str) -> List[dict]:
    """The files of a name, as the index has them on its page; none if nobody holds it."""
    status, _, body = by.index.ask("GET", f"/simple/{name}/", Accept=JSON_PAGE)
    return json.loads(body)["files"] if status == 200 else []


def there(by: Control, name: str) -> Dict[str, str]:
    """The files of a name, each with its digest."""
    return {it["filename"]: it["hashes"]["sha256"] for it in rows(by, name)}


def yanks(by: Control, name: str) -> dict:
    return {it["filename"]: it["yanked"] for it in rows(by, name) if "yanked" in it}


def assert_has(by: Control, world) -> None:
    for name, files in world.items():
        assert there(by, name) == {file: sha256(data) for file, data in files.items()}
    assert {it["requires-python"] for it in rows(by, "spam-nest")} == {PYTHON}


def is_free(by: Control, name: str) -> bool:
    return b'"state":"free"' in by.index.ask("GET", f"/names/{name}")[2]


@catches("indexctl/moving/targets.py", "if not any(row.yanked is not None for row in its):", "if False:")
@pytest.mark.parametrize("kind", KINDS)
def test_an_index_moves_in_with_its_yanks(by, world, kind):
    other = KINDS[kind](world, yanks={WHEEL: REASON, SOURCE: REASON})
    with serving(other.replies) as server:
        moved(by, f"{server.url}{other.root}/", said=["4 files imported, 0 there already, 0 left; 2 new names, 1 yank"])
        before = [it for it in server.paths if "." in it.rpartition("/")[2]]
        moved(by, f"{server.url}{other.root}", said=["0 files imported, 4 there already, 0 left"])
        # what is there is not fetched again
        assert [it for it in server.paths if "." in it.rpartition("/")[2]] == before and len(before) == 4
    assert_has(by, world)
    assert yanks(by, "frob") == {WHEEL: REASON, SOURCE: REASON}


@catches("indexctl/moving/sources.py", "if self.is_digest_needed and not item.sha256:", "if False:")
def test_without_a_sha_256_a_file_is_left_unless_that_is_asked_for(by, world):
    other = pypiserver(world)
    with serving(other.replies) as server:
        moved(by, f"{server.url}/simple/", status=1, said=["0 files imported, 0 there already, 4 left",
                                                            f"left: {WHEEL}", "--without-digests"])
        assert is_free(by, "frob")
        moved(by, f"{server.url}/simple/", "--without-digests", said=["4 files imported"])
        moved(by, f"{server.url}/simple/", "--without-digests", said=["0 files imported, 4 there"])
    assert_has(by, world)


@catches("indexctl/moving/items.py", "return {its: count for its, count in sorted(hosts.items()) if its != host}",
         "return {}")
def test_a_few_releases_of_pypi_come_from_the_host_that_is_named_first(by, folder, world):
    with serving({f"/packages/{file}": ("x/y", data) for file, data in world["frob"].items()}) as files:
        other = files.url.replace("127.0.0.1", "localhost")
        rows = [row_of(file, data, f"{other}/packages/{file}") for file, data in world["frob"].items()]
        egg = row_of("frob-1.0-py3.8.egg", b"x", f"{other}/packages/frob-1.0-py3.8.egg")
        with serving({"/simple/frob/": pypi_page("frob", [*rows, egg])}) as server:
            dry = moved(by, f"{server.url}/simple/", "frob==1.0", "--dry-run")
            assert "2 files would come from another host than the pages: localhost" in dry.stdout
            assert not files.paths and "2 files would be imported" in dry.stdout
            moved(by, f"{server.url}/simple/", "frob==1.0", "Frob==9", status=1,
                  said=["2 files imported", "left: frob==9: the source has no file of it"])
    assert {*there(by, "frob")} == {WHEEL, SOURCE}


@catches("indexctl/moving/pages.py", 'if text.partition(".")[0] not in ("", "1"):',
         'if text not in ("", "1.0", "1.1"):')
@pytest.mark.parametrize("version", ["1.0", "1.1", "1.2", "1.3", "1.4", "1.99"])
def test_each_minor_version_of_json_is_read(by, world, version):
    rows = [row_of(file, data, f"../../f/{file}") for file, data in world["frob"].items()]
    replies = {f"/f/{file}": ("x/y", data) for file, data in world["frob"].items()}
    with serving({**replies, "/simple/frob/": pypi_page("frob", rows, version)}) as server:
        moved(by, f"{server.url}/simple/", "frob", said=["3 files imported"])


@catches("indexctl/moving/pages.py", 'if text.partition(".")[0] not in ("", "1"):', "if False:",
         ("indexctl/moving/sources.py", 'if page.status == "quarantined":', "if False:"))
@pytest.mark.parametrize("page, why", [
    (pypi_page("frob", [], "2.0"), "the page has version 2.0"), (("text/plain", b"x"), "this is text/plain"),
    (pypi_page("frob", [], **{"project-status": {"status": "quarantined"}}), "the source has it in quarantine")])
def test_a_page_that_can_t_be_read_is_left_and_the_others_come(by, world, page, why):
    other = nexus(world)
    replies = {**other.replies, f"{other.root}/frob/": page}
    with serving(replies) as server:
        moved(by, f"{server.url}{other.root}/", status=1, said=["1 file imported", f"left: frob: {why}"])


@catches("indexctl/moving/web.py", "PASSING, REDIRECTS = (429, 500,", "PASSING, REDIRECTS = (500,")
@catches("indexctl/moving/web.py", "if length is not None and size < length:", "if False:")
def test_what_passes_by_itself_is_asked_for_again(by, world):
    other = artifactory(world)

    def before(path, asked):
        """Each path is answered otherwise at first: by 429, by a page or a file that is cut off, by a reset."""
        count = asked.count(path)
        kind, body = other.replies.get(path, ("", b""))
        if count == 1 and path.endswith("/frob/"):
            return 429, "text/plain", b"", {"Retry-After": "1"}
        if count in (1, 2) and body:
            return 200, kind, body[:len(body) // 2], {"Content-Length": str(len(body)), "Connection": "close"}
        return (503, "text/plain", b"") if count == 3 else ()

    def cut(path, asked):
        answer = before(path, asked)
        if answer and answer[0] == 200:
            # the body is shorter than its length, so the connection has to end there
            return answer[:3] + ({**answer[3], "Connection": "close"},)
        return answer
    begun = time.monotonic()
    with serving(other.replies, cut) as server:
        ended = moved(by, f"{server.url}{other.root}/", said=["4 files imported, 0 there already, 0 left"])
    assert "429" in ended.stdout and "503" in ended.stdout and "Again in 1 s" in ended.stdout
    assert time.monotonic() - begun >= 1
    assert_has(by, world)


@catches("indexctl/moving/sources.py", "if item.sha256 and hashlib.sha256(reply.body).hexdigest() != item.sha256:",
         "if False:")
def test_bytes_that_are_not_those_of_the_page_are_left(by, world):
    other = nexus(world)
    path = next(it for it in other.replies if it.endswith(WHEEL))
    other.replies[path] = other.replies[path][0], other.replies[path][1] + b"!"
    with serving(other.replies) as server:
        moved(by, f"{server.url}{other.root}/", status=1,
              said=["3 files imported", f"left: {WHEEL}: its bytes have another digest than the page says"])


@catches("indexctl/moving/sources.py", "if host != self.host:", "if False:")
def test_redirects_are_followed_to_files_and_never_to_another_scheme_or_index(by, folder, world):
    put(f"{folder}/secret", "s3cret")
    rows = [row_of(file, data, f"/to/{file}") for file, data in world["frob"].items()]
    for at, target in enumerate((f"file://{folder}/secret", "ftp://localhost/x", "data:,x")):
        rows.append(row_of(wheel_name("frob", f"2.{at}"), b"x", f"/away/{at}"))
        rows.append(row_of(wheel_name("frob", f"3.{at}"), b"x", target))
    targets = [f"file://{folder}/secret", "ftp://localhost/x", "gopher://localhost/"]

    def before(path, asked):
        if path.startswith("/to/"):
            return 302, "x/y", b"", {"Location": f"../f/{path[4:]}"}
        if path.startswith("/away/"):
            return 302, "x/y", b"", {"Location": targets[int(path[6:])]}
        if path == "/simple/spam-nest/":
            return 302, "x/y", b"", {"Location": server.url.replace("127.0.0.1", "localhost") + "/simple/frob/"}
        return (301, "x/y", b"", {"Location": "/simple/ring/"}) if path == "/simple/ring/" else ()
    replies = {f"/f/{file}": ("x/y", data) for file, data in world["frob"].items()}
    with serving({**replies, "/simple/frob/": pypi_page("frob", rows)}, before) as server:
        ended = moved(by, f"{server.url}/simple/", "frob", "spam-nest", "ring", status=1, said=[
            "3 files imported, 0 there already, 8 left", "spam-nest: it redirects to localhost, which is another index",
            "ring: it redirects more than 5 times"])
    assert ended.stdout.count("is no address of http or https") == 6
    assert {*there(by, "frob")} == {*world["frob"]}


@catches("indexctl/moving/web.py", 'login = self.login if parts.hostname == self.host else ""', "login = self.login")
def test_a_password_goes_to_the_host_of_the_source_alone(by, folder, world):
    with serving({f"/f/{file}": ("x/y", data) for file, data in world["frob"].items()}) as files:
        other = files.url.replace("127.0.0.1", "localhost")
        rows = [row_of(file, data, f"{other}/f/{file}") for file, data in world["frob"].items()]
        with serving({"/simple/frob/": pypi_page("frob", rows)}, lambda path, _: () if is_known() else (
                401, "text/plain", b"")) as server:
            def is_known():
                return server.asked[-1][3].get("Authorization") == "Basic cmVhZGVyOnMzY3JldA=="
            moved(by, f"{server.url}/simple/", "frob", status=1, said=["401, it asks for a password"])
            with_login = server.url.replace("//", "//reader:s3cret@")
            ended = moved(by, f"{with_login}/simple/", "frob", said=["3 files imported"])
            assert "s3cret" not in ended.stdout
            put(f"{by.home}/.netrc", "machine 127.0.0.1\nlogin reader\npassword s3cret\n")
            moved(by, f"{server.url}/simple/", "frob", said=["3 there already"], INDEX_TOKEN="mover")
        assert not [it for it in files.asked if it[3].get("Authorization")]
        assert not [it for it in server.asked if it[3].get("X-Index-Token")]


def tree(folder: str, world) -> str:
    """Folders as devpi and pypiserver have them, with what else lies there."""
    for at, (name, files) in enumerate(world.items()):
        for file, data in files.items():
            path = f"{folder}/root/prod/+f/{sha256(data)[:3]}/{sha256(data)[3:16]}" if at else f"{folder}/{name}"
            os.makedirs(path, exist_ok=True)
            with open(f"{path}/{file}", "wb") as made:
                made.write(data)
    for other in ("README", ".serverversion", "frob/frob-1.0.tar.gz.asc"):
        put(f"{folder}/{other}", "x")
    return folder


@catches("indexctl/moving/trees.py", "if os.path.commonpath([self.top, real]) != self.top:", "if False:")
def test_a_folder_of_any_depth_moves_in_but_for_what_no_index_takes(by, folder, world):
    at = tree(f"{folder}/tree", world)
    put(f"{folder}/outside.whl", "x")
    os.symlink(f"{folder}/outside.whl", f"{at}/{wheel_name('frob', '8.0')}")
    os.mkfifo(f"{at}/{wheel_name('frob', '8.1')}")
    os.mkdir(f"{at}/{wheel_name('frob', '8.2')}")
    for file in ("frob-1.0.zip", "frob-1.0-py3.8.egg", "frob-7-0.tar.gz", wheel_name("frob", "7.1")):
        put(f"{at}/{file}", "no archive")
    with open(f"{at}/{wheel_name('frob', '7.2')}", "wb") as large:
        large.truncate((16 << 20) + 1)
    shutil.copy(f"{at}/frob/{WHEEL}", f"{at}/{wheel_name('other', '1.0')}")
    os.makedirs(f"{at}/zz")
    shutil.copy(f"{at}/frob/{WHEEL}", f"{at}/zz/{WHEEL}")
    put(f"{at}/zz/{SOURCE}", "other bytes")
    os.remove(f"{at}/frob/{wheel_name('frob', '1.1')}")
    accepted(by.index.claim("spam-nest", "bob"))
    said = [f"{at}/frob-1.0.zip: the index takes .whl and .tar.gz alone", f"{at}/frob-1.0-py3.8.egg: the index takes",
            f"{at}/{wheel_name('frob', '7.1')}: it can't be read", f"{at}/frob-7-0.tar.gz: it can't be read",
            f"{at}/{wheel_name('frob', '7.2')}: it has 16777217 bytes",
            f"{at}/{wheel_name('other', '1.0')}: the name inside is 'frob'",
            f"{at}/{wheel_name('frob', '8.0')}: it is a link to", f"{at}/{wheel_name('frob', '8.1')}: it is not a file",
            f"{at}/zz/{SOURCE}: it has other bytes than {at}/frob/{SOURCE}", "the name belongs to bob",
            "2 files imported, 0 there already, 10 left; 1 new name"]
    dry = moved(by, at, "--dry-run", said=[*said[:-1], "2 files would be imported"])
    assert "Traceback" not in dry.stdout
    assert is_free(by, "frob")
    moved(by, at, status=1, said=said)
    moved(by, at, status=1, said=["0 files imported, 2 there already, 10 left"])
    assert {*there(by, "frob")} == {WHEEL, SOURCE}
    assert is_free(by, "other")


@catches("indexctl/moving/targets.py", "if row and row.sha256 != digest:", "if False:")
def test_what_the_index_has_with_other_bytes_is_left(by, folder, world):
    at = tree(f"{folder}/tree", world)
    moved(by, at, said=["4 files imported"])
    file, data = wheel_of(folder, "frob", "1.0", code="OTHER = 1\n")
    with serving({"/simple/frob/": pypi_page("frob", [row_of(file, data, "x")])}) as server:
        moved(by, f"{server.url}/simple/", "frob", status=1,
              said=[f"left: {file}: the index has other bytes at this name"])
        assert len(server.paths) == 1
    shutil.copy(f"{folder}/{file}", f"{at}/frob/{file}")
    moved(by, at, status=1, said=["3 there already, 1 left", "the index has other bytes at this name"])


@catches("indexctl/moving/targets.py", 'return answer if self.why(row, status, answer) else ""', 'return ""')
def test_owners_of_a_file_become_owners_and_strangers_are_listed(by, folder, world):
    at = tree(f"{folder}/tree", world)
    owners = put(f"{folder}/owners.csv", "name,user\nFrob,bob\nfrob,carl\nspam-nest,bob\nspam-nest,carl\nnowhere,bob\n")
    moved(by, at, "--owners", owners, status=1, said=["left: owner carl of frob, spam-nest: there is no user carl",
                                                       "2 new names, 2 owners"])
    for name in ("frob", "spam-nest"):
        assert json.loads(by.index.ask("GET", f"/names/{name}")[2])["owners"] == ["bob", "mover"]
    for text in ("frob,Bob\n", "frob\n", "frob,bob,x\n", "-,bob\n"):
        put(owners, f"frob,bob\n{text}")
        moved(by, at, "--owners", owners, status=2, said=[f"{owners}, line 2: "])


@catches("indexctl/moving/items.py", "if len(reasons) == len(items):", "if reasons:")
def test_a_release_of_which_some_files_are_yanked_stays_and_is_listed(by, world):
    other = nexus(world, yanks={WHEEL: REASON})
    with serving(other.replies) as server:
        moved(by, f"{server.url}{other.root}/", status=1, said=[
            "4 files imported", "left: the yank of frob 1.0: the source yanks some of its files alone"])
    assert not yanks(by, "frob")


@catches("indexctl/moving/targets.py", 'self.yank(spelled.release if spelled else "")',
         'self.yank(spelled.release if spelled and is_new else "")')
def test_a_later_yank_comes_with_the_next_run_and_none_is_taken_back(by, world):
    for now in ({}, {WHEEL: "", SOURCE: ""}, {}):
        other = nexus(world, yanks=now)
        with serving(other.replies) as server:
            moved(by, f"{server.url}{other.root}/")
    assert yanks(by, "frob") == {WHEEL: True, SOURCE: True}


@catches("indexctl/commands/moving.py", 'if not args.dry_run and desk.caller() == "nobody":', "if False:")
def test_a_token_of_nobody_imports_nothing(by, folder, world):
    moved(by, tree(f"{folder}/tree", world), caller="nobody", status=1,
          said=["No user has this token, which comes from INDEX_TOKEN. Nothing was imported."])


@catches("indexctl/moving/trees.py", "if not os.path.isdir(folder):", "if False:")
@pytest.mark.parametrize("source, why", [
    ("nowhere", "is neither a folder nor an address"), ("file:///etc", "is no address of http or https"),
    ("http://127.0.0.1:1/simple/", "127.0.0.1:1/simple/: it can't be reached"),
    ("https://no-such-host.invalid/simple/", "There is no host no-such-host.invalid")])
def test_a_source_that_is_none_is_told(by, source, why):
    ended = by.run("import", source, "--again", "0", caller="mover")
    assert ended.returncode in (2, 3) and why in ended.stdout, ended.stdout


@catches("indexctl/moving/targets.py", "if status >= 500:", "if status >= 400:")
def test_a_full_quota_leaves_the_rest_of_a_project_and_goes_on(by, index, folder, world):
    accepted(index.claim("frob", "mover"))
    accepted(index.request(do="set_quota", name="frob", quota=1500))
    ended = moved(by, tree(f"{folder}/tree", world), status=1, said=["OverQuota", "spam-nest: 1 imported"])
    assert ended.stdout.count("OverQuota") >= 1
    accepted(index.request(do="set_quota", name="frob", quota=1 << 30))
    moved(by, f"{folder}/tree", said=["0 left"])
    assert_has(by, world)


@catches("indexctl/commands/moving.py", "note(text) if args.json else say(text))", "say(text))")
def test_a_report_is_json_too(by, folder, world):
    at = tree(f"{folder}/tree", world)
    put(f"{at}/frob-1.0.zip", "x")
    found = by.rows("import", at, caller="mover")
    assert found == {"imported": 4, "there": 0, "claimed": ["frob", "spam-nest"], "yanked": [], "owners": [],
                     "left": [{"place": f"{at}/frob-1.0.zip", "why": "the index takes .whl and .tar.gz alone"}]}
