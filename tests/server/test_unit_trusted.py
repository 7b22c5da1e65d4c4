"""The exchange of identity tokens for passes, and what a pass uploads; with the service on a port of loopback."""
import contextlib
import json
import os
import sqlite3
import threading

import pytest
from support.clients.forms import asked, form, message
from support.library import ends, passes, replies
from support.planted import catches
from support.programs import program_of
from support.server.issuer import AUDIENCE, Issuer, claims, placed, trusted
from support.server.issuer import Issuer as Signer
from support.unit import ends as ended
from support.unit import raises

LEGACY = program_of("index-legacy-upload")
WHEEL, DATA = "frob-1.0-py3-none-any.whl", b"data"
# the first digits of the SHA-256 digest of `token-of-frobci`, as sha256sum prints them
DIGITS = "da124619"


@pytest.fixture(scope="module")
def issuer():
    return Issuer()


@pytest.fixture
def folders(tmp_path, issuer):
    return placed(tmp_path, issuer)


@pytest.fixture
def exchange(folders):
    return trusted.Exchange(*folders)


def sent(token):
    return json.dumps({"token": token}).encode()


def passed(exchange, token):
    reply, _ = exchange.exchanged(sent(token))
    return json.loads(reply)["token"]


def refusal(call, *words):
    with pytest.raises(replies.Refused) as refused:
        call(*words)
    return refused.value.status, refused.value.sentence, refused.value.note


@catches("server/lib/package_index/trusted.py", "if project in it.projects:", "if project:",
         also=["test_another_project_than_that_of_the_publisher_does_not_reach_the_index",
               "server/test_trusted_publishing.py::"
               "test_the_log_of_changes_names_the_user_of_the_publisher_and_no_token"])
def test_a_pass_uploads_the_projects_of_its_publisher_as_its_user(exchange, issuer):
    made = passed(exchange, issuer.token())
    for project in ("frob", "frob-extras"):
        assert exchange.uploader(made, project) == ("token-of-frobci", "frob")
    assert exchange.exchanged(sent(issuer.token()))[1] == "a pass for frob"
    status, sentence, note = refusal(exchange.uploader, made, "octo")
    assert (status, note) == (403, "of frob") and sentence.startswith("this pipeline may not upload octo; ask")


def test_the_token_of_a_user_is_passed_on_as_it_is(exchange):
    for token in ("office", "5e1f" * 16, "eyJ", "a.b.c"):
        assert exchange.uploader(token, "frob") == (token, "")


@catches("server/lib/package_index/passes.py", "if not at.rowcount:", "if at.rowcount < 0:",
         also=["test_a_token_that_says_the_same_again_is_refused_by_its_id", "test_of_many_at_once_one_gets_a_pass",
               "server/test_trusted_publishing.py::test_an_identity_token_is_good_for_once_also_after_a_restart"])
@catches("server/lib/package_index/passes.py", 'TABLES = """CREATE TABLE IF NOT EXISTS used',
         'TABLES = """DROP TABLE IF EXISTS used; CREATE TABLE used',
         also=["server/test_trusted_publishing.py::test_an_identity_token_is_good_for_once_also_after_a_restart"])
def test_an_identity_token_is_good_for_once_and_no_password(exchange, issuer, folders):
    token = issuer.token()
    assert refusal(exchange.uploader, token, "frob")[:2] == (
        401, "an identity token is no password; exchange it for one at /_/oidc/mint-token first")
    passed(exchange, token)
    again = 422, "this identity token was exchanged already, and is good for once; run the job again"
    assert refusal(exchange.exchanged, sent(token))[:2] == again
    # as after a restart
    assert refusal(trusted.Exchange(*folders).exchanged, sent(token))[:2] == again


def test_a_token_that_says_the_same_again_is_refused_by_its_id(exchange, issuer):
    said = claims()
    passed(exchange, issuer.token(said))
    assert refusal(exchange.exchanged, sent(issuer.token({**said, "sub": "other"}, "ES256")))[0] == 422
    assert passed(exchange, issuer.token({**said, "jti": "another"}))


def test_of_many_at_once_one_gets_a_pass(exchange, issuer):
    token, got = issuer.token(), []

    def ask():
        with contextlib.suppress(replies.Refused):
            got.append(passed(exchange, token))

    threads = [threading.Thread(target=ask) for _ in range(12)]
    for it in threads:
        it.start()
    for it in threads:
        it.join()
    assert len(got) == 1


@pytest.mark.told("a pipeline is refused with its")
@pytest.mark.parametrize("said", [
    {"project_path": "team/evil"}, {"ref_protected": "false"}, {"ref_protected": None}, {"project_path": None},
    {"ref_protected": True}, {"project_path": "TEAM/FROB"}, {"project_path": None, "Project_path": "team/frob"}])
def test_a_pipeline_of_no_publisher_is_refused_and_the_log_says_what_it_is(exchange, issuer, said):
    status, sentence, note = refusal(exchange.exchanged, sent(issuer.token(claims(**said))))
    assert status == 422 and sentence.startswith("no publisher here fits this pipeline; ask the operator")
    assert "project_path" not in sentence and "true" not in sentence
    assert note.startswith("of gitlab: project_path ")
    assert note.endswith(f", ref_protected {claims(**said).get('ref_protected')!a}")


@catches("server/lib/package_index/trusted.py", "if it.issuer == issuer.name and it.fits(claims)]",
         "if it.fits(claims)]")
def test_a_pipeline_fits_the_publishers_of_its_own_issuer_alone(exchange, issuer):
    said = claims(project_path=None, repository="octo-org/octo-repo", environment="prod")
    assert refusal(exchange.exchanged, sent(issuer.token(said)))[1].startswith("no publisher here fits")


def test_what_a_pipeline_says_is_logged_in_a_line_that_is_short(exchange, issuer):
    note = refusal(exchange.exchanged, sent(issuer.token(claims(project_path="\n\u00e9" * 900))))[2]
    assert len(note) <= 300 and note.isascii() and note.isprintable()


@pytest.mark.parametrize("body", [
    b"", b"[]", b"{}", b'{"token": 7}', b"null", b"[" * 9000, b'{"token": null}', b"\xff"])
def test_a_body_that_is_none_is_refused(exchange, body):
    assert refusal(exchange.exchanged, body)[:2] == (422, 'the body has to be {"token": "IDENTITY TOKEN"}')


@catches("server/lib/package_index/passes.py", 'WHERE digest = ? AND until >= ?",', 'WHERE digest = ? AND ?",')
def test_a_pass_ends_after_a_quarter_of_an_hour(exchange, issuer, monkeypatch):
    made, now = passed(exchange, issuer.token()), int(trusted.time.time())
    for later, is_good in ((890, True), (905, False)):
        monkeypatch.setattr(trusted.time, "time", lambda later=later: now + later)
        if is_good:
            assert exchange.uploader(made, "frob") == ("token-of-frobci", "frob")
        else:
            assert refusal(exchange.uploader, made, "frob")[:2] == (
                401, "this password of a pipeline has ended, after a quarter of an hour; run the job again")


@pytest.mark.parametrize("text", ["pipeline-", f"pipeline-{'0' * 64}", "pipeline-' OR 1=1 --"])
def test_a_pass_that_nobody_got_is_refused(exchange, text):
    assert refusal(exchange.uploader, text, "frob")[0] == 401


@catches("server/lib/package_index/trusted.py", "for it in names if it in self.known.publishers]",
         "for it in self.known.publishers]")
def test_a_pass_of_a_publisher_that_was_taken_out_is_refused(exchange, issuer, folders):
    made = passed(exchange, issuer.token())
    with open(folders[0], encoding="utf-8") as kept:
        text = kept.read()
    with open(folders[0], "w", encoding="utf-8") as kept:
        kept.write(text.replace("[publisher frob]", "[publisher other]"))
    assert refusal(trusted.Exchange(*folders).uploader, made, "frob")[0] == 401


def test_a_used_token_is_remembered_until_it_has_ended(exchange, issuer, monkeypatch):
    """With the minute by which clocks may differ."""
    said = claims()
    passed(exchange, issuer.token(said))
    kept = passes.digest_of(f"{said['iss']}\n{said['jti']}")
    for later, count in ((60, 1), (63, 0)):
        exchange.passes.give("other", f"{later}", said["exp"] + 9999, [], said["exp"] + later)
        with contextlib.closing(sqlite3.connect(exchange.passes.path)) as store:
            assert store.execute("SELECT count(*) FROM used WHERE id = ?", (kept,)).fetchone() == (count,), later


@catches("server/lib/package_index/passes.py", "return hashlib.sha256(text.encode()).hexdigest()",
         'return text or hashlib.sha256(b"").hexdigest()')
def test_neither_tokens_nor_passes_are_kept_as_they_are(exchange, issuer):
    said = claims()
    made = passed(exchange, issuer.token(said))
    with open(exchange.passes.path, "rb") as kept:
        data = kept.read()
    assert made.partition("-")[2].encode() not in data and said["jti"].encode() not in data


def test_no_more_are_remembered_than_the_disk_is_to_hold(exchange, issuer, monkeypatch):
    monkeypatch.setattr(passes, "MOST_KEPT", 2)
    first = [passed(exchange, issuer.token()) for _ in range(2)]
    told = 503, "too many pipelines have asked; ask again later"
    assert refusal(exchange.exchanged, sent(issuer.token()))[:2] == told
    assert all(exchange.uploader(it, "frob") for it in first)


@catches("server/lib/package_index/trusted.py", "if not found or found.of != (now.st_mtime_ns, now.st_size):",
         "if not found:")
def test_new_keys_are_read_once_they_are_there(exchange, issuer, folders):
    other = Signer()
    assert refusal(exchange.exchanged, sent(other.token()))[1].startswith("no key of an issuer")
    passed(exchange, issuer.token())
    with open(f"{folders[1]}/gitlab.json", "w", encoding="utf-8") as kept:
        kept.write(json.dumps(other.keys()))
    os.utime(f"{folders[1]}/gitlab.json", (1, 1))
    assert passed(exchange, other.token())
    assert refusal(exchange.exchanged, sent(issuer.token()))[1].startswith("no key of an issuer")


@catches("server/lib/package_index/trusted.py", "lacks.append(end)", "raise end")
@pytest.mark.parametrize("text", [None, "", "{}", '{"keys": []}'])
def test_keys_that_are_not_there_are_told_and_hinder_no_other_issuer(exchange, issuer, folders, text):
    for name in ("github", "gitlab"):
        os.remove(f"{folders[1]}/{name}.json")
        if text is not None:
            with open(f"{folders[1]}/{name}.json", "w", encoding="utf-8") as kept:
                kept.write(text)
        if name == "github":
            assert passed(exchange, issuer.token())
    status, sentence, note = refusal(exchange.exchanged, sent(issuer.token()))
    assert (status, sentence) == (503, "the keys of issuers can't be read; tell the operator") and "gitlab.json" in note


@pytest.mark.parametrize("spoil, said", [
    (lambda at: os.remove(f"{at[2]}/token_octoci"), "no token of the user octoci: "),
    (lambda at: os.truncate(f"{at[2]}/token_octoci", 0), "token_octoci has no token"),
    (lambda at: os.rmdir(at[3]), "passes.db: unable to open"),
    (lambda at: os.truncate(at[0], 0), "publishers.ini, line 1: [index] says no `audience`")])
def test_what_is_wrong_ends_the_service_at_its_start(folders, spoil, said):
    spoil(folders)
    with pytest.raises(ends.Refused) as refused:
        trusted.Exchange(*folders)
    assert said in str(refused.value)


def test_a_disk_that_takes_no_pass_gives_none(exchange, issuer, monkeypatch):
    made = passed(exchange, issuer.token())
    monkeypatch.setattr(exchange.passes, "opened", raises(sqlite3.OperationalError("disk full")))
    assert refusal(exchange.exchanged, sent(issuer.token())) == (
        503, "the index can't keep passes now; tell the operator", "passes.db: disk full")
    assert refusal(exchange.uploader, made, "frob")[0] == 503


@contextlib.contextmanager
def service(monkeypatch, exchange, answer=(201, "accepted")):
    """The service on a port of loopback, whose index answers so; and the tokens that it is asked by."""
    given = []
    monkeypatch.setattr(LEGACY, "answer_to", lambda index, made, token: given.append(token) or answer)
    with LEGACY.Server(("127.0.0.1", 0), "x:1", 4, exchange) as serving:
        threading.Thread(target=serving.serve_forever, kwargs={"poll_interval": 0.01}, daemon=True).start()
        yield serving, given
        serving.shutdown()


def mint(data, method="POST", path="/_/oidc/mint-token"):
    return message(data, method=method, Authorization=None).replace(b"/legacy/", path.encode(), 1)


def test_a_pipeline_asks_for_the_audience_exchanges_and_uploads(monkeypatch, capsys, exchange, issuer):
    with service(monkeypatch, exchange) as (serving, given):
        head, body = asked(serving, mint(b"", "GET", "/_/oidc/audience"))
        assert head.startswith("HTTP/1.1 200 OK") and json.loads(body) == {"audience": AUDIENCE}
        head, body = asked(serving, mint(sent(issuer.token())))
        reply = json.loads(body)
        assert "\r\nContent-Type: application/json\r\n" in head and "\r\nCache-Control: no-store" in head
        assert head.startswith("HTTP/1.1 200 OK") and reply["success"] is True
        head, body = asked(serving, message(form(WHEEL, DATA), reply["token"]))
    assert head.startswith("HTTP/1.1 200 OK") and given == ["token-of-frobci"]
    assert f"\r\nX-Index-Caller: {DIGITS}" in head and "frobci" not in head + body
    assert capsys.readouterr().err == f"200 -\n200 - a pass for frob\n200 {WHEEL} by frob\n"


def test_a_refusal_of_an_exchange_is_told_as_twine_reads_it(monkeypatch, capsys, exchange, issuer):
    with service(monkeypatch, exchange) as (serving, _):
        head, body = asked(serving, mint(sent(issuer.token(claims(project_path="team/\u00e9\nvil")))))
    said = json.loads(body)
    assert head.startswith("HTTP/1.1 422 no publisher here fits this pipeline")
    assert said["errors"] == [{"code": "refused", "description": said["message"]}]
    assert capsys.readouterr().err == r"422 - of gitlab: project_path 'team/\xe9\nvil', ref_protected 'true'" + "\n"


def test_a_refusal_of_an_upload_names_the_publisher_in_the_log(monkeypatch, capsys, exchange, issuer):
    made = passed(exchange, issuer.token())
    with service(monkeypatch, exchange, (409, "FileNameTaken")) as (serving, _):
        head, _ = asked(serving, message(form(WHEEL, DATA), made))
    assert head.startswith("HTTP/1.1 409 FileNameTaken") and capsys.readouterr().err == f"409 {WHEEL} by frob\n"


def test_a_user_of_a_publisher_whose_token_was_changed_is_told_as_the_operators(monkeypatch, exchange, issuer):
    made = passed(exchange, issuer.token())
    with service(monkeypatch, exchange, (401, "BadToken")) as (serving, _):
        head, _ = asked(serving, message(form(WHEEL, DATA), made))
    assert head.startswith("HTTP/1.1 401 BadToken: No user has this token, which comes from the operator's entry frob.")


def test_another_project_than_that_of_the_publisher_does_not_reach_the_index(monkeypatch, exchange, issuer):
    made = passed(exchange, issuer.token())
    with service(monkeypatch, exchange) as (serving, given):
        head, _ = asked(serving, message(form("octo-1.0-py3-none-any.whl", DATA), made))
    assert head.startswith("HTTP/1.1 403 this pipeline may not upload octo") and not given


def test_a_body_that_is_too_long_is_refused(monkeypatch, exchange, issuer):
    with service(monkeypatch, exchange) as (serving, _):
        head, _ = asked(serving, mint(json.dumps({"more": "a" * (1 << 14), "token": issuer.token()}).encode()))
    assert head.startswith("HTTP/1.1 422 the body has to be")


@pytest.mark.parametrize("method", ["PUT", "DELETE", "HEAD"])
def test_other_methods_change_nothing(monkeypatch, exchange, issuer, method):
    with service(monkeypatch, exchange) as (serving, _):
        assert asked(serving, mint(sent(issuer.token()), method))[0].startswith("HTTP/1.1 405")
        status = asked(serving, mint(b"", method, "/_/oidc/audience"))[0][9:12]
        assert status == ("200" if method == "HEAD" else "405")


def test_without_a_file_of_publishers_no_identity_is_taken(monkeypatch, issuer):
    with service(monkeypatch, None) as (serving, given):
        for text in (mint(sent(issuer.token())), mint(b"", "GET", "/_/oidc/audience")):
            head, _ = asked(serving, text)
            assert head.startswith("HTTP/1.1 404 this index takes no identity of a pipeline; give the pipeline a tok")
        asked(serving, message(form(WHEEL, DATA), "pipeline-0"))
    assert given == ["pipeline-0"]


def test_the_service_is_given_a_file_and_what_systemd_names(monkeypatch, capsys, folders):
    made = []

    class Serves(contextlib.nullcontext):
        server_port = 7

        def __init__(self, *words):
            super().__init__(self)
            made.append(words[3])

        serve_forever = staticmethod(lambda: None)

    monkeypatch.setattr(LEGACY, "Server", Serves)
    words = ["--publishers", folders[0], "--keys", folders[1]]
    monkeypatch.delenv("CREDENTIALS_DIRECTORY", raising=False)
    monkeypatch.setenv("STATE_DIRECTORY", folders[3])
    said = "--publishers needs LoadCredential= and StateDirectory=, as publishers.conf has them"
    assert ended(LEGACY, monkeypatch, capsys, *words)[::2] == (1, f"index-legacy-upload: {said}\n")
    monkeypatch.setenv("CREDENTIALS_DIRECTORY", folders[2])
    assert ended(LEGACY, monkeypatch, capsys, *words)[0] == 0
    assert [it.folder for it in made] == [folders[1]] and made[0].tokens == {
        "frobci": "token-of-frobci", "octoci": "token-of-octoci"}


def test_without_the_packages_that_it_needs_the_service_says_so(monkeypatch, capsys, folders):
    monkeypatch.setitem(LEGACY.sys.modules, "package_index.trusted", None)
    status, _, said = ended(LEGACY, monkeypatch, capsys, "--publishers", folders[0])
    assert status == 1
    assert said.startswith("index-legacy-upload: --publishers needs python3-jwt and python3-cryptography: ")
