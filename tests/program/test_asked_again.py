"""What is asked again after a change is answered by the tables as they now are, and not by what was cached before."""
import json

import pytest
from support.running import by_sqlite
from support.serving import JSON_PAGE, Index, accepted, sha256
from support.subcommands import End
from support.workload import line_of

# a moment a year after the upload of `old`, and more than six weeks after the attempts to reach its owner
NOW = 50_000_000
BOB = "hello"
BODIES = {f"frob-{release}.tar.gz": f"the bytes of {release}".encode() for release in ("1.0", "1.1", "2.0")}
FIRST, SECOND, THIRD = BODIES
OLD, NEW = "old-1.0.tar.gz", "old-2.0.tar.gz"
FAULT = 500, b'{"answer":"fault","name":"Store"}'


def attempt(at, means):
    return line_of("office", at, do="record_attempt", name="old", means=means, sent=True)


# bob seeks the project `old` of the office, which is to be ready for a transfer
LINES = b"".join((
    line_of("office", 1, do="add_user", user="bob", office=False, token_sha256=sha256(b"hello")),
    line_of("office", 1, do="claim", name="old"),
    line_of("office", 1, do="claim", name="frob"),
    line_of("office", 1, do="upload", file=OLD, sha256=sha256(b"old"), hex=b"old".hex(), requires_python=""),
    line_of("hello", 2, do="open_case", name="old", kind="continue", contact="mail", work="a fork", why="used"),
    *(attempt(3, means) for means in ("profile", "author", "pages")),
))


@pytest.fixture
def path(index_file, end):
    assert end("apply", "--db", index_file, given=LINES) == End(0, b'{"answer":"accepted"}\n' * LINES.count(b"\n"))
    return index_file


@pytest.fixture
def index(program, path):
    """It serves a year later."""
    with Index(program, path=path, at=NOW) as serving:
        yield serving


def twice(index, path, accept):
    """The status and the body of a reply, which the same request has again."""
    first, again = (index.ask("GET", path, Accept=accept)[::2] for _ in range(2))
    assert first == again, "another reply to the same request"
    return first


def page(index, project):
    """The digests and the yanks on a project's page by file, or the statuses of the replies if there is no page."""
    status, body = twice(index, f"/simple/{project}/", JSON_PAGE)
    shown_status, shown = twice(index, f"/simple/{project}/", "text/html")
    if status != 200 or shown_status != 200:
        return status, shown_status
    files = {it["filename"]: (it["hashes"]["sha256"], it.get("yanked", False)) for it in json.loads(body)["files"]}
    assert {file for file in (*BODIES, OLD, NEW) if file.encode() in shown} == {*files}, "other links in HTML"
    return files


def listed(files, yanked=None):
    """The page that has these files."""
    return {file: (sha256(body), (yanked or {}).get(file, False)) for file, body in files.items()}


def only(*names):
    return {file: BODIES[file] for file in names}


def body_of(index, project, file):
    """The bytes of a file, or the status if there are none."""
    status, body = twice(index, f"/files/{project}/{file}", "*/*")
    return body if status == 200 else status


def delete(index):
    return index.ask("DELETE", f"/files/frob/{SECOND}", X_Index_Token="office")


# each change, and the page behind it
CHANGES = {
    "a PUT": (lambda it: it.upload("frob", FIRST, BODIES[FIRST]), listed(only(FIRST))),
    "a second PUT": (lambda it: it.upload("frob", SECOND, BODIES[SECOND]), listed(only(FIRST, SECOND))),
    "a third PUT": (lambda it: it.upload("frob", THIRD, BODIES[THIRD]), listed(BODIES)),
    "a DELETE": (delete, listed(only(FIRST, THIRD))),
    "a yank": (lambda it: it.request(do="yank", name="frob", release="2.0", reason="broken"),
               listed(only(FIRST, THIRD), {THIRD: "broken"})),
    "its end": (lambda it: it.request(do="unyank", name="frob", release="2.0"), listed(only(FIRST, THIRD))),
    "a ban": (lambda it: it.request(do="ban_file", file=FIRST), listed(only(THIRD))),
    "a PUT of a banned file": (lambda it: it.upload("frob", FIRST, BODIES[FIRST]), listed(only(THIRD))),
    "a prohibition": (lambda it: it.request(do="prohibit", name="frob"), (404, 404)),
}


def test_a_page_and_its_files_are_those_after_each_change(index, looked):
    looked(page(index, "frob") == {}, "the page of a project without files")
    for name, (change, wanted) in CHANGES.items():
        status = change(index)[0]
        looked(status == 403 if name == "a PUT of a banned file" else status in (200, 201), name, status)
        seen = page(index, "frob")
        looked(seen == wanted, f"the page after {name}", seen, wanted)
        found = {file: body_of(index, "frob", file) for file in BODIES}
        kept = {file: BODIES[file] if isinstance(wanted, dict) and file in wanted else 404 for file in BODIES}
        looked(found == kept, f"the files after {name}", found, kept)


def test_a_page_is_the_new_owners_after_a_transfer(index, looked):
    before, after = listed({OLD: b"old"}), listed({OLD: b"old", NEW: b"new"})
    looked(page(index, "old") == before, "the page before a transfer")
    looked(index.request(do="transfer", name="old", quiet=True)[0] == 200, "a transfer is accepted")
    looked(page(index, "old") == before, "the page after a transfer")
    looked(index.upload("old", NEW, b"new")[0] == 403, "a PUT of the former owner")
    looked(page(index, "old") == before, "the page after that PUT")
    looked(index.upload("old", NEW, b"new", token=BOB)[0] == 201, "a PUT of the new owner")
    looked(page(index, "old") == after, "the page of the new owner's file")
    looked(body_of(index, "old", OLD) == b"old", "a file of another project")


def test_a_file_that_was_spoilt_between_two_openings_is_a_fault_of_the_store(program, path, looked):
    """By another hand, while nobody served: its page and its bytes are such a fault, the page of names is not."""
    # (of a volume each start looks at the file that ends last)
    with Index(program, path=path) as index:
        accepted(index.upload("frob", FIRST, BODIES[FIRST]))
    by_sqlite(path, f"UPDATE files SET digest = x'61' WHERE file = '{OLD}'")
    with Index(program, path=path) as index:
        looked(twice(index, "/simple/old/", JSON_PAGE) == FAULT, "the page of a spoilt file")
        looked(twice(index, f"/files/old/{OLD}", "*/*") == FAULT, "the bytes of a spoilt file")
        looked(twice(index, "/simple/", JSON_PAGE)[0] == 200, "the page of the names beside it")
