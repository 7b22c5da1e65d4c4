"""An index that has packages and is asked past nginx, by curl."""
from __future__ import annotations

import json
import subprocess
from collections.abc import Callable

from support.needed import want_command
from support.running import run_command
from support.seen import Seen
from support.serving import JSON_PAGE, sha256

REASON = '<3 & "x"'


def bytes_of(path: str) -> bytes:
    with open(path, "rb") as kept:
        return kept.read()


def digest_of(path: str) -> str:
    return sha256(bytes_of(path))


class Curl:
    """Requests by curl. What came last is kept: the status, the lines of the head and the body."""

    def __init__(self, port: int, folder: str, looked: Callable) -> None:
        want_command("curl", "curl")
        self.site, self.folder, self.looked = f"http://127.0.0.1:{port}", folder, looked

    def ask(self, path: str, *words: str) -> Curl:
        head, body = f"{self.folder}/head", f"{self.folder}/body"
        for old in (head, body):
            open(old, "wb").close()
        self.asked = f"{path} {' '.join(words)}"[:300]
        ended = run_command(["curl", "-q", "-sS", "--noproxy", "*", "--max-time", "60", "-H", "Expect:", "-D", head,
                             "-o", body, "-w", "%{http_code}", *words, self.site + path])
        with open(head, encoding="latin-1", newline="") as kept:
            self.head = kept.read().split("\r\n")
        self.body = bytes_of(body)
        self.ended = ended.returncode, ended.stdout
        return self

    def post(self, token: str, **request) -> Curl:
        return self.ask("/requests", "-H", f"X-Index-Token: {token}", "-d", json.dumps(request))

    def put(self, token: str, project: str, file: str, path: str, requires: str = "", digest: str = "") -> Curl:
        words = ["-T", path, "-H", f"X-Index-Token: {token}", "-H", f"X-Index-SHA256: {digest or digest_of(path)}"]
        words += ["-H", f"X-Requires-Python: {requires}"] if requires else []
        return self.ask(f"/files/{project}/{file}", *words)

    def tells(self, status: int, body: bytes | None = None, head: str | None = None) -> None:
        """This status came, with this body, or a part of it, and with this line of the head."""
        is_well = self.ended == (0, str(status)) and (head is None or head in self.head)
        self.looked(is_well and (body is None or body in self.body),
                    Seen(self.asked, (self.ended, self.head, self.body[:200]), (status, body, head)))

    def has_bytes(self, data: bytes) -> None:
        self.looked(self.body == data, Seen(self.asked, f"{len(self.body)} bytes", f"{len(data)} bytes as they were"))


def fill(curl: Curl, packages: dict) -> None:
    """Two users, two names and their files."""
    for user, token in (("ann", b"abc"), ("bob", b"hello")):
        curl.post("office", do="add_user", user=user, office=False, token_sha256=sha256(token))
        curl.tells(200, b'{"answer":"accepted"}')
    for bearer, name in (("abc", "Frob"), ("hello", "Spam.Nest")):
        curl.post(bearer, do="claim", name=name).tells(200, b'{"answer":"accepted"}')
    for project, bearer in (("frob", "abc"), ("spam-nest", "hello")):
        for file, (path, requires) in packages[project].items():
            curl.put(bearer, project, file, path, requires).tells(201, b'{"answer":"accepted"}')
    curl.post("abc", do="yank", name="frob", release="1.1", reason=REASON).tells(200)


def shown(curl: Curl) -> list:
    """What a reader of the index sees: pages, standings and files."""
    names = ("frob", "spam-nest")
    files = [f"/files/{name}/{row['filename']}" for name in names
             for row in json.loads(curl.ask(f"/simple/{name}/", "-H", f"Accept: {JSON_PAGE}").body)["files"]]
    pages = []
    for path in ("/simple/", *(f"/simple/{name}/" for name in names), *(f"/names/{name}" for name in names), *files):
        curl.ask(path)
        pages.append((path, curl.ended, curl.body))
    return pages


def run_python(code: str, path: str) -> subprocess.CompletedProcess:
    """The end of a program of Python that finds modules in this folder."""
    return run_command(["python3", "-c", code], 120, PYTHONPATH=path)
