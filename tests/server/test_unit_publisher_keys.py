"""index-publishers: the keys of issuers, from a server of this process that speaks TLS."""
import contextlib
import http.server
import json
import ssl
import threading
import time

import pytest
from support.needed import want_command
from support.planted import catches
from support.programs import program_of
from support.server.front import make_certificate
from support.server.issuer import FILE, Issuer
from support.unit import ends

KEYS = program_of("index-publishers")


class Answers(http.server.BaseHTTPRequestHandler):
    def do_GET(self):
        self.server.asked.append(self.path)
        status, head, body = self.server.answers[self.path.rpartition("/")[2]]
        self.send_response(status)
        for name, value in head.items():
            self.send_header(name, value)
        self.end_headers()
        with contextlib.suppress(OSError):
            for piece in body:
                self.wfile.write(piece)

    def log_message(self, *_):
        """Nothing is said of it."""


@pytest.fixture(scope="module")
def keys():
    return json.dumps(Issuer().keys())


@pytest.fixture(scope="module")
def certificate(tmp_path_factory):
    want_command("openssl", "openssl")
    return make_certificate(str(tmp_path_factory.mktemp("issuer")))


@pytest.fixture
def issuers(certificate, tmp_path, monkeypatch, keys):
    """Two issuers of one server, `gitlab` and `github`, both with keys, and the file that names them."""
    with http.server.ThreadingHTTPServer(("127.0.0.1", 0), Answers) as serving:
        trust = ssl.SSLContext(ssl.PROTOCOL_TLS_SERVER)
        trust.load_cert_chain(certificate, certificate.replace("/pem", "/key"))
        serving.socket = trust.wrap_socket(serving.socket, server_side=True)
        serving.asked, serving.daemon_threads = [], True
        serving.answers = {"keys": (200, {}, [keys.encode()]), "jwks": (200, {}, [keys.encode()])}
        threading.Thread(target=serving.serve_forever, kwargs={"poll_interval": 0.01}, daemon=True).start()
        at = f"https://127.0.0.1:{serving.server_port}"
        text = FILE.replace("keys = https://gitlab.example", f"keys = {at}")
        (tmp_path / "publishers.ini").write_text(
            text.replace("keys = https://token.actions.githubusercontent.com", f"keys = {at}"))
        (tmp_path / "kept").mkdir()
        monkeypatch.setenv("SSL_CERT_FILE", certificate)
        monkeypatch.setenv("NO_PROXY", "*")
        yield serving
        serving.shutdown()


def run(monkeypatch, capsys, tmp_path):
    """The status, what was said, and what is kept by then."""
    status, out, err = ends(KEYS, monkeypatch, capsys, tmp_path / "publishers.ini", tmp_path / "kept")
    assert not out
    return status, err, {it.name: it.read_text() for it in (tmp_path / "kept").iterdir()}


def test_the_keys_of_each_issuer_are_put_where_everybody_reads_them(monkeypatch, capsys, tmp_path, issuers, keys):
    assert run(monkeypatch, capsys, tmp_path) == (0, "", {"gitlab.json": keys, "github.json": keys})
    assert issuers.asked == ["/oauth/discovery/keys", "/.well-known/jwks"]
    assert {it.stat().st_mode & 0o777 for it in (tmp_path / "kept").iterdir()} == {0o644}


@catches("server/bin/index-publishers", "build_opener(Stay).open(", "build_opener().open(")
@catches("server/bin/index-publishers", "keys_in(text, issuer.algorithms)", "keys_in and len(text)")
@pytest.mark.told("the keys of an issuer can't be had")
@pytest.mark.parametrize("answer, said", [
    ((404, {}, []), "HTTP Error 404: Not Found"), ((200, {}, []), "not a set of keys"),
    ((200, {}, [b'{"keys": []}']), "it has no key for RS256 or ES256"), ((200, {}, [b"\xff"]), "can't decode byte"),
    ((302, {"Location": "/.well-known/jwks"}, []), "HTTP Error 302"),
    ((301, {"Location": "http://127.0.0.1:1/"}, []), "HTTP Error 301"),
    ((200, {}, [b" " * 65536] * 5), "its answer has more than 262144 bytes"),
    ((200, {"Content-Length": "99999"}, [b'{"keys"']), "not a set of keys")])
def test_the_keys_from_before_stay_if_none_can_be_had_and_the_others_are_fetched(monkeypatch, capsys, tmp_path, issuers,
                                                                                keys, answer, said):
    (tmp_path / "kept/gitlab.json").write_text("before")
    issuers.answers["keys"] = answer
    status, err, kept = run(monkeypatch, capsys, tmp_path)
    assert status == 1 and kept == {"gitlab.json": "before", "github.json": keys}
    assert err.startswith(f"index-publishers: gitlab: no keys from https://127.0.0.1:{issuers.server_port}/oauth/")
    assert said in err and err.count("\n") == 1


def test_an_issuer_that_is_slow_is_not_waited_for(monkeypatch, capsys, tmp_path, issuers):
    def slowly():
        for _ in range(200):
            time.sleep(0.05)
            yield b" "

    monkeypatch.setattr(KEYS, "PATIENCE", 0.3)
    issuers.answers["keys"] = (200, {}, slowly())
    begun = time.monotonic()
    status, err, _ = run(monkeypatch, capsys, tmp_path)
    assert status == 1 and "its answer took more than 0.3 seconds" in err and time.monotonic() - begun < 8


def test_an_issuer_that_is_silent_is_not_waited_for(monkeypatch, capsys, tmp_path, issuers):
    def never():
        time.sleep(20)
        yield b""

    monkeypatch.setattr(KEYS, "SILENT", 0.3)
    issuers.answers["keys"] = (200, {"Content-Length": "9"}, never())
    begun = time.monotonic()
    assert run(monkeypatch, capsys, tmp_path)[0] == 1 and time.monotonic() - begun < 15


def test_an_issuer_whose_certificate_nobody_trusts_gives_no_keys(monkeypatch, capsys, tmp_path, issuers):
    monkeypatch.delenv("SSL_CERT_FILE")
    status, err, kept = run(monkeypatch, capsys, tmp_path)
    assert status == 1 and err.count("CERTIFICATE_VERIFY_FAILED") == 2 and not kept and not issuers.asked


def test_what_is_wrong_in_the_file_is_told_and_nothing_is_fetched(monkeypatch, capsys, tmp_path, issuers):
    with open(tmp_path / "publishers.ini", "a", encoding="utf-8") as kept:
        kept.write("project = frob\n")
    status, err, kept = run(monkeypatch, capsys, tmp_path)
    assert status == 1 and err.endswith("`project` is not known here\n") and not kept and not issuers.asked


def test_keys_that_can_not_be_written_are_told(monkeypatch, capsys, tmp_path, issuers):
    (tmp_path / "kept/gitlab.json.part").mkdir()
    status, _, err = ends(KEYS, monkeypatch, capsys, tmp_path / "publishers.ini", tmp_path / "kept")
    assert status == 1 and "gitlab: no keys" in err and "Is a directory" in err


def test_without_the_packages_that_it_needs_it_says_so(monkeypatch, capsys, tmp_path, issuers):
    monkeypatch.setitem(KEYS.sys.modules, "package_index.identity", None)
    status, err, kept = run(monkeypatch, capsys, tmp_path)
    assert status == 1 and "this needs python3-jwt and python3-cryptography: " in err and not kept
