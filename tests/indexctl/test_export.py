"""`indexctl export` writes what `indexctl import` takes again: the pages of both indexes are the same, byte by byte."""
from __future__ import annotations

import csv
import hashlib
import io
import json
import os
import zipfile

import pytest
from support.indexctl.control import Control, assert_ends, digest, filled, line, user_lines
from support.indexctl.scripted import scripted, standing_of
from support.packages import wheel_files, wheel_name
from support.planted import catches
from support.serving import JSON_PAGE, Index, accepted, sha256

KINDS = "text/html", "application/vnd.pypi.simple.v1+html", JSON_PAGE
SHOWN = "Frob._-Nest"


def wheel(name: str, version: str, requires: str = "") -> bytes:
    made = io.BytesIO()
    with zipfile.ZipFile(made, "w") as archive:
        for path, text in wheel_files(name, version, "", requires=requires).items():
            archive.writestr(zipfile.ZipInfo(path), text)
    return made.getvalue()


def upload(token: str, name: str, version: str, requires: str = "", inside: str = ""):
    data = wheel(name, version, inside or requires)
    return line(1, token, "upload", file=wheel_name(name, version), sha256=sha256(data), hex=data.hex(),
                requires_python=requires)


def lines_of(count: int):
    """So many names of two users, with yanks, a deleted file, another Requires-Python than inside, and no files."""
    yield from user_lines("ann", "bob")
    yield line(1, "ann", "claim", name=SHOWN)
    for at in range(count - 1):
        name, user = f"p{at}", ("ann", "bob")[at % 2]
        yield line(1, user, "claim", name=f"P{at}")
        yield upload(user, name, "1.0", ">=3.8" if at % 3 else "")
        if at % 4 == 0:
            yield upload(user, name, "2.0", "", ">=3.9")
            yield line(1, user, "yank", name=name, release="1.0", reason=("", "br\u00f6ken & <old>")[at % 8 == 0])
        if at % 5 == 0:
            yield upload(user, name, "3.0")
            yield line(1, user, "delete", file=wheel_name(name, "3.0"))
        if at % 6 == 0:
            yield line(1, user, "add_owner", name=name, user=("bob", "ann")[at % 2])


def pages_of(index: Index, names):
    paths = ["/simple/", *(f"/simple/{name}/" for name in names)]
    return {(path, kind): index.ask("GET", path, Accept=kind)[::2] for path in paths for kind in KINDS}


def files_of(folder: str):
    """What lies in a folder: each file with its digest."""
    found = {}
    for where, _, names in os.walk(folder):
        for it in names:
            with open(os.path.join(where, it), "rb") as kept:
                found[os.path.relpath(os.path.join(where, it), folder)] = hashlib.sha256(kept.read()).hexdigest()
    return found


@pytest.fixture
def moved_out(program, folder):
    """An index of a few names, and what an export of it has written."""
    with Index(program, path=filled(program, f"{folder}/a.db", lines_of(12))) as index:
        by = Control(folder, f"http://127.0.0.1:{index.port}")
        assert_ends(by.run("export", f"{folder}/out", INDEX_TOKEN=None), 0, "12 projects: 14 files written")
        yield by, index, f"{folder}/out"


@catches("indexctl/moving/targets.py", "why = self.claim(self.project.shown or file.shown)",
         "why = self.claim(self.name)")
@pytest.mark.parametrize("count", [20, pytest.param(300, marks=[pytest.mark.slow, pytest.mark.timeout(900)])])
def test_pages_are_the_same_in_an_index_that_was_empty(program, folder, count):
    names = ["frob-nest", *(f"p{at}" for at in range(count - 1))]
    with Index(program, path=filled(program, f"{folder}/a.db", lines_of(count))) as index:
        by = Control(folder, f"http://127.0.0.1:{index.port}")
        assert_ends(by.run("export", f"{folder}/out"), 0, f"{count} projects: ", "0 left")
        wanted = pages_of(index, names)
    with Index(program) as empty:
        accepted(empty.request(do="add_user", user="ann", office=False, token_sha256=digest("ann")))
        by = Control(folder, f"http://127.0.0.1:{empty.port}")
        ended = by.run("import", f"{folder}/out", "--owners", f"{folder}/out/owners.csv")
        assert_ends(ended, 1, f"{count} new names", "1 left", "left: owner bob of p0, p1, ", "there is no user bob")
        assert pages_of(empty, names) == wanted
        for at in (2, 6):
            assert json.loads(empty.ask("GET", f"/names/p{at}")[2])["owners"] == ["ann", "office"]
        assert_ends(by.run("import", f"{folder}/out"), 0, "0 files imported", "0 left")
    assert all(status == 200 for status, _ in wanted.values())


@catches("indexctl/moving/exports.py", '"url": row["filename"],', '"url": row["url"],')
def test_an_export_has_owners_and_a_page_beside_the_files(moved_out):
    _, index, out = moved_out
    assert {*os.listdir(out)} == {"owners.csv", "frob-nest", *(f"p{at}" for at in range(11))}
    with open(f"{out}/owners.csv", encoding="utf-8", newline="") as kept:
        rows = [tuple(it) for it in csv.reader(kept)]
    assert rows[:3] == [("name", "user"), ("frob-nest", "ann"), ("p0", "ann")] and ("p6", "bob") in rows
    with open(f"{out}/p0/index.json", encoding="utf-8") as kept:
        page = json.load(kept)
    yanks = {"1.0": "br\u00f6ken & <old>", "2.0": None}
    assert [(it["filename"], it["url"], it.get("yanked")) for it in page["files"]] == [
        (wheel_name("p0", it), wheel_name("p0", it), yank) for it, yank in yanks.items()]
    assert page["meta"]["api-version"] == "1.1" and page["_name"] == "P0"


@catches("indexctl/moving/exports.py", "if hashlib.sha256(kept.read()).hexdigest() == digest:", "if False:")
@catches("indexctl/moving/exports.py", "known = read_owners(path) if os.path.exists(path) else {}",
         "known: Owners = {}")
def test_a_second_export_writes_what_is_new_and_keeps_the_owners_of_others(moved_out):
    by, index, out = moved_out
    before = files_of(out)
    assert_ends(by.run("export", out), 0, "0 files written, 14 there already")
    assert files_of(out) == before
    accepted(index.ask("DELETE", f"/files/p0/{wheel_name('p0', '2.0')}", X_Index_Token="ann"))
    with open(f"{out}/p0/{wheel_name('p0', '1.0')}", "ab") as kept:
        kept.write(b"!")
    assert_ends(by.run("export", out, "P0"), 0, "1 project: 1 file written, 0 there already")
    after = files_of(out)
    assert {path for path in before if before[path] != after[path]} == {"p0/index.json"}


@catches("indexctl/moving/trees.py", "if item.sha256 and hashlib.sha256(data).hexdigest() != item.sha256:", "if False:")
def test_files_that_were_damaged_lost_or_deleted_since_are_left(program, moved_out, folder):
    by, index, out = moved_out
    with open(f"{out}/p0/{wheel_name('p0', '1.0')}", "ab") as kept:
        kept.write(b"!")
    os.remove(f"{out}/p1/{wheel_name('p1', '1.0')}")
    with open(f"{out}/p2/{wheel_name('p2', '9.0')}", "wb") as made:
        made.write(wheel("p2", "9.0"))
    with Index(program) as empty:
        ended = Control(folder, f"http://127.0.0.1:{empty.port}").run("import", out)
        assert_ends(ended, 1, f"{wheel_name('p0', '1.0')}: its bytes have another digest than index.json says",
                    f"{wheel_name('p1', '1.0')}: index.json names it, and it is not there",
                    f"{wheel_name('p2', '9.0')}: index.json beside it does not name it",
                    "12 files imported, 0 there already, 3 left",
                    "owners.csv names owners")


@catches("indexctl/moving/exports.py", 'self.report.left.append(Left(name, "nobody holds it"))', "pass")
def test_a_name_that_nobody_holds_is_left(moved_out):
    by, _, out = moved_out
    assert_ends(by.run("export", out, "p0", "p99"), 1, "1 project: ", "left: p99: nobody holds it")


@catches("indexctl/moving/exports.py", 'rows = [it for it in found["files"] if read_file_name(it["filename"])]',
         'rows = found["files"]')
def test_no_name_of_an_index_leads_out_of_the_folder(folder):
    """A server in the place of an index gives names that are paths."""
    wicked, plain = "../../outside-1.0.tar.gz", "frob-1.0.tar.gz"

    def answer(method, path, *_):
        if path == "/simple/":
            return 200, JSON_PAGE, json.dumps({"projects": [{"name": "frob"}]}).encode()
        if path.startswith("/names/"):
            return standing_of(path)
        if path == "/simple/frob/":
            rows = [{"filename": it, "hashes": {"sha256": sha256(b"x")}, "url": "x"} for it in (wicked, plain)]
            return 200, JSON_PAGE, json.dumps({"files": rows}).encode()
        return 200, "x/y", b"x"
    os.makedirs(f"{folder}/a/b")
    with scripted(answer) as server:
        assert_ends(Control(folder, server.url).run("export", f"{folder}/a/b/out"), 0, "1 file written")
    assert {*files_of(f"{folder}/a")} == {f"b/out/{it}" for it in (
        "owners.csv", "frob/index.json", f"frob/{plain}")}


@catches("indexctl/moving/exports.py", "if reply.status != 200:", "if False:")
def test_a_file_that_went_after_its_page_is_left(folder):
    def answer(method, path, *_):
        if path.startswith("/names/"):
            return standing_of(path)
        if path == "/simple/frob/":
            rows = [{"filename": "frob-1.0.tar.gz", "hashes": {"sha256": sha256(b"gone")}, "url": "x"}]
            return 200, JSON_PAGE, json.dumps({"files": rows}).encode()
        return 404, "x/y", b"gone"
    with scripted(answer) as server:
        assert_ends(Control(folder, server.url).run("export", f"{folder}/out", "frob"), 1, "0 files written",
                    "left: frob-1.0.tar.gz: the index answers 404: it was deleted meanwhile")
    assert {*files_of(f"{folder}/out")} == {"owners.csv", "frob/index.json"}


@catches("indexctl/commands/moving.py",
         '''raise Stop(WRONG, f"{args.folder} can't be made: {end.strerror}") from end''', "raise")
def test_a_folder_that_can_t_be_written_is_told(moved_out, folder):
    by, _, out = moved_out
    with open(f"{folder}/plain", "w", encoding="utf-8"):
        pass
    assert_ends(by.run("export", f"{folder}/plain"), 2, f"{folder}/plain can't be made")
