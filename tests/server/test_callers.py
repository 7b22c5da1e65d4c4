"""Who asked for a change, in nginx's log of changes, and the file of a form: callers.conf, and the header of
index-legacy-upload."""
from __future__ import annotations

import base64
import http.client
from collections.abc import Iterator

import pytest
from support.clients.forms import BOUNDARY, Service, form
from support.needed import want_file
from support.places import TOP
from support.planted import catches
from support.running import run_command
from support.server.front import MODULES, Front, kept
from support.server.kept import Kept
from support.server.pasted import block
from support.server.waits import wait_for
from support.serving import accepted, sha256

MODULE = "/usr/share/nginx/modules-available/mod-http-js.conf"
# as `indexctl token new` makes one, with the first digits of its digest, which sha256sum printed
TOKEN, DIGITS = "5e1f" * 16, "ec2d8f40"
# of the token `office`, as sha256sum printed them
OFFICE = "5cc3f828"
LIBRARY = f"{TOP}:{TOP}/server/lib"
FILE = "/files/frob/frob-1.0.tar.gz"


@pytest.fixture(autouse=True)
def module() -> None:
    """Debian's module of nginx that callers.conf needs."""
    want_file(MODULE, "libnginx-mod-http-js")


@pytest.fixture
def forms(kept_index: Kept, certificate: str, folder: str) -> Iterator[Front]:
    """nginx with uploads by forms, which the service passes on to the index. `frob` is the office's."""
    accepted(kept_index.claim("frob"))
    with Service(kept_index.port) as service:
        front = Front(f"{folder}/forms", certificate, kept_index.port)
        front.put("index/server.d/legacy.conf", kept("legacy.conf"), **{"127.0.0.1:8090": f"127.0.0.1:{service.port}"})
        with front:
            yield front
            assert not front.errors()


def logged(front: Front, number: int = 1) -> list[dict]:
    """The lines of the log, once there are so many: nginx writes a line after its reply."""
    wait_for(lambda: len(front.changes()) >= number)
    return front.changes()


def basic(login: str) -> str:
    return f"Basic {base64.b64encode(login.encode()).decode()}"


def posted(front: Front, file: str, data: bytes = b"data", login: str = "__token__:office") -> tuple:
    """A form as twine sends it."""
    return front.ask("POST", "/legacy/", form(file, data), Authorization=basic(login),
                     Content_Type=f"multipart/form-data; boundary={BOUNDARY}")


def test_each_kind_of_change_names_its_caller(front):
    accepted(front.request(do="add_user", user="ann", office=False, token_sha256=sha256(TOKEN.encode())))
    accepted(front.claim("frob", TOKEN))
    accepted(front.upload("frob", "frob-1.0.tar.gz", b"data", token=TOKEN))
    accepted(front.ask("DELETE", FILE, X_Index_Token=TOKEN))
    lines = sorted(logged(front, 4), key=lambda it: (it["at"], it["method"] == "DELETE"))
    assert sorted((it["method"], it["caller"]) for it in lines) == [
        ("DELETE", DIGITS), ("POST", OFFICE), ("POST", DIGITS), ("PUT", DIGITS)]


def test_a_token_of_indexctl_is_named_though_it_was_refused(front):
    """It may be one that leaked, and was changed since."""
    assert front.claim("frob", TOKEN)[0] == 401
    assert [(it["status"], it["caller"]) for it in logged(front)] == [(401, DIGITS)]


@pytest.mark.parametrize("text", ["hunter2", TOKEN[1:], f"{TOKEN}0", TOKEN.upper(), ""])
def test_a_refused_text_that_may_be_a_password_is_not_named(front, text):
    """A password that somebody sends by mistake can be guessed by its digest."""
    assert front.claim("frob", text)[0] == 401
    assert [it["caller"] for it in logged(front)] == [""]


def test_the_password_of_a_reader_names_nobody(front):
    body = b'{"do":"claim","name":"frob"}'
    assert front.ask("POST", "/requests", body, Authorization=basic(f"ann:{TOKEN}"))[0] == 401
    assert [it["caller"] for it in logged(front)] == [""]


def test_of_two_tokens_the_one_is_named_that_the_index_takes(front):
    """Else whoever sends a second one would be another."""
    body = b'{"do":"claim","name":"frob"}'
    connection = http.client.HTTPSConnection("127.0.0.1", front.port, timeout=60, context=front.trust)
    connection.putrequest("POST", "/requests")
    for name, value in (("x-index-TOKEN", " office\t"), ("X-Index-Token", TOKEN), ("Content-Length", len(body))):
        connection.putheader(name, value)
    connection.endheaders(body)
    assert connection.getresponse().status == 200
    connection.close()
    assert [it["caller"] for it in logged(front)] == [OFFICE]


@catches("server/bin/index-legacy-upload", 'self.send_header("X-Index-File", self.file)', "pass",
         also=["test_a_refused_form_names_its_file", "server/test_unit_legacy_service.py::test_what_a_client_is_told"])
@pytest.mark.parametrize("login", ["__token__:office", ":office", "ann: office\n"])
def test_a_form_names_its_caller_and_its_file(forms, login):
    status, headers, body = posted(forms, "frob-1.0.tar.gz", login=login)
    assert status == 200 and headers["X-Index-File"] is None, (headers.items(), body)
    assert [(it["path"], it["caller"], it["file"]) for it in logged(forms)] == [
        ("/legacy/", OFFICE, "frob-1.0.tar.gz")]


def test_a_refused_form_names_its_file(forms):
    assert posted(forms, "ham-1.0.tar.gz", login=f"__token__:{TOKEN}")[0] == 401
    assert [(it["status"], it["caller"], it["file"]) for it in logged(forms)] == [(401, DIGITS, "ham-1.0.tar.gz")]


@pytest.mark.parametrize("header", [
    "Basic !", "Basic", "", basic(TOKEN), basic(f":{TOKEN}").replace("Basic", "Bearer")])
def test_a_form_without_a_password_names_nobody(forms, header):
    assert forms.ask("POST", "/legacy/", b"x", Authorization=header)[0] in (400, 401)
    assert [(it["caller"], it["file"]) for it in logged(forms)] == [("", "")]


def test_what_is_no_request_names_nobody(front):
    assert front.ask("POST", "/requests", b"x", X_Index_Token="office")[0] == 400
    assert [it["caller"] for it in logged(front)] == [""]


def test_the_block_of_the_page_prints_the_same_digits_twice(front):
    accepted(front.request(do="set_token", user="office", token_sha256=sha256(TOKEN.encode())))
    logged(front)
    script = block("INDEX_URL=https://packages.example INDEX_TOKEN=$office indexctl token check")
    log = f"{front.folder}/index-changes.log"
    for old, new in (("https://packages.example", front.url), ("/var/log/package-index/changes.log", log),
                     ("sleep 1", f"until [ $(wc -l < {log}) = 2 ]; do sleep 0.1; done")):
        assert old in script
        script = script.replace(old, new)
    indexctl = 'indexctl() { python3 -B -m indexctl "$@"; }\n'
    setting = {"office": TOKEN, "INDEX_CA": front.certificate, "PYTHONPATH": LIBRARY}
    ended = run_command(["bash", "-ec", indexctl + script], **setting)
    assert (ended.returncode, ended.stdout.splitlines()[-2:]) == (0, [f'"caller":"{DIGITS}"', DIGITS]), ended


def test_without_the_module_nginx_serves_and_names_nobody(kept_index, certificate, folder):
    front = Front(f"{folder}/plain", certificate, kept_index.port)
    for path, old, new in (("nginx.conf", MODULES, ""), ("conf.d/packages.conf", "mod-http-j[s]/", "mod-non[e]/")):
        with open(f"{front.folder}/{path}") as made:
            text = made.read()
        front.put(path, text, **{old: new})
    with front:
        accepted(front.claim("frob"))
        assert [(it["status"], it["caller"]) for it in logged(front)] == [(200, "")]
