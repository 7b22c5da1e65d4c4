"""A pipeline's identity in place of a token: the service with a file of publishers, behind nginx, in front of an index,
asked as the pipelines of the page of owners do."""
from __future__ import annotations

import base64
import json
import os
import re
import subprocess
from collections.abc import Iterator
from pathlib import Path

import pytest
from support.clients.forms import BOUNDARY, Service, form
from support.needed import want_command, want_file
from support.packages import make_source, make_wheel, wheel_files, wheel_name
from support.places import TOP
from support.planted import catches
from support.running import run_command
from support.server.front import Front, kept
from support.server.issuer import AUDIENCE, TOKEN, Issuer, claims, placed
from support.server.kept import Kept
from support.server.waits import wait_for
from support.serving import accepted, sha256

MODULE = "/usr/share/nginx/modules-available/mod-http-js.conf"
MINT = "/_/oidc/mint-token"
FILE = "frob-1.0-py3-none-any.whl"


@pytest.fixture(scope="module")
def issuer() -> Issuer:
    return Issuer()


class World:
    """nginx, the service and the index, and what the service was given."""

    def __init__(self, front: Front, service: Service, index: Kept, folders: tuple) -> None:
        self.front, self.service, self.index, self.folders = front, service, index, folders

    def exchange(self, token: str) -> tuple[int, dict]:
        status, _, body = self.front.ask("POST", MINT, json.dumps({"token": token}))
        return status, json.loads(body)

    def passed(self, token: str) -> str:
        status, found = self.exchange(token)
        assert status == 200, found
        return found["token"]

    def upload(self, password: str, file: str = FILE, data: bytes = b"data") -> tuple:
        login = base64.b64encode(f"__token__:{password}".encode()).decode()
        return self.front.ask("POST", "/legacy/", form(file, data), Authorization=f"Basic {login}",
                              Content_Type=f"multipart/form-data; boundary={BOUNDARY}")

    def has(self, file: str, project: str = "frob") -> bool:
        return self.index.ask("GET", f"/files/{project}/{file}")[0] == 200


@pytest.fixture
def world(kept_index: Kept, certificate: str, folder: str, issuer: Issuer,
          monkeypatch: pytest.MonkeyPatch) -> Iterator[World]:
    """frobci owns `frob` and `frob-extras`; `ham` is the office's."""
    for user in ("frobci", "octoci"):
        accepted(kept_index.request(do="add_user", user=user, office=False,
                                    token_sha256=sha256(f"token-of-{user}".encode())))
    for project, token in (("frob", TOKEN), ("frob-extras", TOKEN), ("ham", "office")):
        accepted(kept_index.claim(project, token))
    os.mkdir(f"{folder}/service")
    folders = placed(Path(f"{folder}/service"), issuer)
    monkeypatch.setenv("CREDENTIALS_DIRECTORY", folders[2])
    monkeypatch.setenv("STATE_DIRECTORY", folders[3])
    with Service(kept_index.port, "--publishers", folders[0], "--keys", folders[1]) as service:
        front = Front(f"{folder}/forms", certificate, kept_index.port)
        for name in ("legacy.conf", "pipelines.conf"):
            front.put(f"index/server.d/{name}", kept(name), **{"127.0.0.1:8090": f"127.0.0.1:{service.port}"})
        with front:
            yield World(front, service, kept_index, folders)
            assert not front.errors()


@catches("server/lib/package_index/trusted.py", 'if TOKEN.fullmatch(password) and password.startswith("eyJ"):',
         "if password.startswith(PREFIX):",
         also=["server/test_unit_trusted.py::test_an_identity_token_is_good_for_once_and_no_password"])
def test_a_pipeline_uploads_what_its_publisher_has_and_nothing_else(world, issuer):
    status, _, body = world.front.ask("GET", "/_/oidc/audience")
    assert (status, json.loads(body)) == (200, {"audience": AUDIENCE})
    made = world.passed(issuer.token())
    assert world.upload(made)[0] == 200 and world.upload(made, "frob_extras-1.0.tar.gz")[0] == 200
    assert world.has(FILE) and world.has("frob_extras-1.0.tar.gz", "frob-extras")
    assert world.upload(made, "ham-1.0.tar.gz")[0] == 403 and not world.has("ham-1.0.tar.gz", "ham")
    # it is no token: neither of its user, nor for another request
    assert world.front.claim("eggs", made)[0] == 401
    assert world.front.ask("DELETE", f"/files/frob/{FILE}", X_Index_Token=made)[0] == 401


# the cases of the best practices (RFC 8725) and of what issuers sign for others
REFUSED = {
    "alg none": ({}, {"algorithm": "none"}), "alg none with a signature": ({}, {"alg": "none"}),
    "HS256 by the public key": ({}, {"algorithm": "HS256"}), "PS256": ({}, {"algorithm": "PS256"}),
    "other kid": ({}, {"kid": "k9"}), "the kid of another key": ({}, {"kid": "k2"}),
    "crit": ({}, {"crit": ["exp"]}), "an access token": ({}, {"typ": "at+jwt"}),
    "other audience": ({"aud": "https://pypi.org"}, {}), "no audience": ({"aud": None}, {}),
    "ended": ({"iat": 1_699_999_000, "exp": 1_700_000_000}, {}),
    "no end": ({"exp": None}, {}), "not yet": ({"nbf": 4_000_000_000}, {}),
    "made later": ({"iat": 4_000_000_000, "exp": 4_000_000_600}, {}), "for years": ({"exp": 4_000_000_000}, {}),
    "other issuer": ({"iss": "https://gitlab.com"}, {}), "issuer a list": ({"iss": ["https://gitlab.example"]}, {}),
    "no id": ({"jti": None}, {}), "other project": ({"project_path": "team/evil"}, {}),
    "no project": ({"project_path": None}, {}), "unprotected": ({"ref_protected": "false"}, {}),
    "protected as no text": ({"ref_protected": True}, {}),
}


@pytest.mark.parametrize("said, head", REFUSED.values(), ids=REFUSED)
def test_an_identity_token_is_refused_and_nothing_is_uploaded(world, issuer, said, head):
    token = issuer.token(claims(**said), **head)
    status, found = world.exchange(token)
    assert (status, len(found["errors"]), "token" in found) == (422, 1, False), found
    assert world.upload(token)[0] == 401 and not world.has(FILE)
    assert world.exchange(issuer.token())[0] == 200


@pytest.mark.parametrize("head", [{}, {"jku": "https://evil.example/"}, {"kid": "k2", "algorithm": "ES256"}])
def test_the_key_of_another_signs_for_nobody(world, head):
    other = Issuer()
    for more in ({}, {"jwk": other.keys()["keys"][0]}):
        assert world.exchange(other.token(**head, **more))[0] == 422


def test_claims_that_were_changed_are_refused(world, issuer):
    own, other = issuer.token(claims(project_path="team/evil")).split("."), issuer.token().split(".")
    assert world.exchange(".".join([own[0], other[1], own[2]]))[0] == 422


def test_an_identity_token_is_good_for_once_also_after_a_restart(world, issuer, monkeypatch):
    token = issuer.token()
    made = world.passed(token)
    assert world.exchange(token)[0] == 422
    with Service(world.index.port, "--publishers", world.folders[0], "--keys", world.folders[1]) as again:
        reply = again.ask(form(FILE, b"data"), made)
        assert reply and reply[0] == 200
    world.service.__exit__()
    with Service(world.index.port, "--publishers", world.folders[0], "--keys", world.folders[1]) as again:
        body = json.dumps({"token": token}).encode()
        ended = run_command(["curl", "-sS", "-d", body.decode(), f"http://127.0.0.1:{again.port}{MINT}"])
    assert "exchanged already" in ended.stdout


def test_the_log_of_changes_names_the_user_of_the_publisher_and_no_token(world, issuer):
    want_file(MODULE, "libnginx-mod-http-js")
    token = issuer.token()
    made = world.passed(token)
    _, headers, _ = world.upload(made)
    assert headers["X-Index-Caller"] is None and headers["X-Index-File"] is None
    world.upload(made, "ham-1.0.tar.gz")
    wait_for(lambda: len(world.front.changes()) >= 3)
    digits = sha256(TOKEN.encode())[:8]
    assert sorted((it["path"], it["status"], it["caller"], it["file"]) for it in world.front.changes()) == [
        (MINT, 200, "", ""), ("/legacy/", 200, digits, FILE), ("/legacy/", 403, "", "ham-1.0.tar.gz")]
    for name in os.listdir(world.front.folder):
        if name.endswith(".log"):
            text = Path(f"{world.front.folder}/{name}").read_text(errors="replace")
            assert made not in text and token not in text and TOKEN not in text, name


def test_a_body_that_is_no_identity_token_is_refused_by_its_length(world):
    assert world.front.ask("POST", MINT, "a" * 17_000)[0] == 413


def test_an_exchange_asks_for_no_password_of_readers(world, issuer):
    world.front.put("readers", "")
    asks = f"auth_basic packages;\nauth_basic_user_file {world.front.folder}/readers;\nset $reader $remote_user;\n"
    world.front.put("index/server.d/a-password.conf", asks)
    assert run_command([*world.front.words, "-s", "reload"]).returncode == 0
    wait_for(lambda: world.front.ask("GET", "/simple/")[0] == 401)
    assert world.exchange(issuer.token())[0] == 200


def test_a_service_that_is_away_is_told(world, issuer):
    world.service.__exit__()
    status, headers, _ = world.front.ask("POST", MINT, json.dumps({"token": issuer.token()}))
    assert (status, headers["Retry-After"]) == (503, "2")


@pytest.mark.told("`publishers.ini` is wrong, or a token is missing")
@pytest.mark.parametrize("old, new, line, said", [
    ("ref_protected", "ref_protectd", 14, "no claim says the branch, tag or environment"),
    ("user = frobci", "user = ", 18, "says no `user`"), ("RS256 ES256", "HS256", 7, "HS256 is not one of"),
    ("user = frobci", "user = nobody", 0, "no token of the user nobody")])
def test_a_file_that_is_wrong_ends_the_service_at_its_start(world, old, new, line, said):
    path = world.folders[0]
    text = Path(path).read_text()
    assert old in text
    Path(path).write_text(text.replace(old, new, 1))
    words = [*world.service.words[:3], "--listen", "127.0.0.1:0", "--publishers", path, "--keys", world.folders[1]]
    ended = run_command(words)
    at = f"{path}, line {line}: " if line else ""
    assert ended.returncode == 1 and ended.stdout.startswith(f"index-legacy-upload: {at}"), ended.stdout
    assert said in ended.stdout and ended.stdout.count("\n") == 1


def script(kind: str) -> str:
    """What the pipeline of the page runs."""
    page = Path(f"{TOP}/docs/users/OWNING.md").read_text(encoding="utf-8")
    block = re.search(rf"^\*\*An upload by {kind}\*\*.*?^```yaml\n(.*?)^```$", page, re.M | re.S)[1]
    lines = block.partition("script:\n" if kind == "GitLab" else "run: |\n")[2].splitlines()
    return "\n".join(it for it in (re.sub(r"^ *(- )?", "", it) for it in lines) if it != "|")


@pytest.mark.parametrize("kind", ["GitLab", "GitHub"])
def test_the_pipeline_of_the_page_uploads_a_release_by_twine(world, issuer, folder, kind, certificate):
    want_command("twine", "twine")
    want_command("curl", "curl")
    os.makedirs(f"{folder}/job/dist")
    files = wheel_files("frob", "2.0", "", requires=">=3.7")
    make_wheel(f"{folder}/job/dist/{wheel_name('frob', '2.0')}", files)
    make_source(f"{folder}/job/dist/frob-2.0.tar.gz", "frob", "2.0", files)
    os.makedirs(f"{folder}/job/bin")
    # GitHub answers a job by its identity token; building is for another test
    curl = Path(f"{folder}/job/bin/curl")
    curl.write_text(f'#!/bin/sh\ncase "$*" in *actions.example*audience=packages.example*) '
                    f"echo '{{\"value\": \"{issuer.token()}\"}}' ;; *) exec /usr/bin/curl \"$@\" ;; esac\n")
    curl.chmod(0o755)
    text = script(kind).replace("https://packages.example", world.front.url)
    text = text.replace("python3 -m build", "true").replace("python3 -m pip install build twine", "true")
    setting = {"IDENTITY": issuer.token(), "ACTIONS_ID_TOKEN_REQUEST_URL": "https://actions.example/?a=b",
               "ACTIONS_ID_TOKEN_REQUEST_TOKEN": "x", "PATH": f"{folder}/job/bin:/usr/bin:/bin", "HOME": folder,
               "CURL_CA_BUNDLE": certificate, "REQUESTS_CA_BUNDLE": certificate, "NO_PROXY": "*",
               "PYTHON_KEYRING_BACKEND": "keyring.backends.null.Keyring", "LC_ALL": "C.UTF-8"}
    ended = subprocess.run(["bash", "-ec", text], cwd=f"{folder}/job", env=setting, stdout=subprocess.PIPE,
                           stderr=subprocess.STDOUT, text=True, timeout=120, stdin=subprocess.DEVNULL)
    assert ended.returncode == 0 and world.has(wheel_name("frob", "2.0")) and world.has("frob-2.0.tar.gz"), ended.stdout
