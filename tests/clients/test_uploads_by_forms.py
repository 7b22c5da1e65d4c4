"""index-legacy-upload past nginx: which forms it takes and refuses, by its own decision or by the index's."""
import os

import pytest
from support.clients.forms import BOUNDARY, END, Service, field, form
from support.planted import catches
from support.seen import Seen
from support.serving import Index, accepted, sha256

WHEEL = "frob-{}-py3-none-any.whl"
LARGEST = 16_777_216
DATA = b"data"
# of the tests that the index has nothing of: one file each
REFUSED, MALFORMED = WHEEL.format("5.0"), WHEEL.format("6.0")


@pytest.fixture(scope="module")
def forms_index(program):
    """An index with the project `frob`, and with the user ann, who owns nothing."""
    with Index(program) as index:
        accepted(index.claim("frob"))
        accepted(index.request(do="add_user", user="ann", office=False, token_sha256=sha256(b"abc")))
        accepted(index.request(do="add_user", user="bob", office=False, token_sha256=sha256(b"token:of:bob")))
        accepted(index.claim("ham", "token:of:bob"))
        yield index


@pytest.fixture(scope="module")
def service(forms_index):
    """index-legacy-upload in front of it."""
    with Service(forms_index.port) as made:
        yield made


@pytest.fixture
def says(looked):
    """A reply has this status, and each of these in the reason beside it and in its body."""
    def look(asked, reply, status, *reason):
        _, _, body = reply[2].partition("\r\n\r\n") if reply else ("", "", "")
        is_well = reply and reply[0] == status and all(it in reply[1] and it in body for it in reason)
        looked(is_well, Seen(asked, reply, (status, *reason)))
    return look


def has_bytes(index, file, data, looked):
    reply = index.ask("GET", f"/files/frob/{file}")
    looked(reply[2] == data, Seen(f"GET of {file}", (reply[0], reply[2][:200]), f"{len(data)} bytes as they were sent"))


def has_none(index, file, looked):
    reply = index.ask("GET", f"/files/frob/{file}")
    looked(reply[0] == 404, Seen(f"GET of {file}", reply[0], 404))


@catches("server/bin/index-legacy-upload", "self.send_response(status, reason)", "self.send_response(299, reason)",
         also=["test_a_form_is_taken", "test_a_token_with_colons_is_taken_whole",
               "test_a_refusal_of_the_index_is_told_in_a_sentence", "test_a_form_is_refused_and_the_index_is_not_asked",
               "test_a_head_is_refused", "test_a_malformed_form_is_refused",
               "test_a_form_that_breaks_off_at_any_byte_is_refused",
               "clients/test_forms_service.py::test_a_broken_index_is_told_and_not_waited_for",
               "clients/test_forms_service.py::test_an_index_that_starts_meanwhile_is_asked_again",
               "clients/test_forms_service.py::test_an_index_that_stays_away_is_waited_for_some_seconds",
               "clients/test_forms_service.py::test_many_large_forms_at_once_take_the_memory_of_four",
               "clients/test_publishers.py::test_twine_is_refused_other_bytes",
               "clients/test_publishers.py::test_twine_is_refused_a_zip_archive",
               "clients/test_publishers.py::test_twine_is_refused_a_token_of_nobody",
               "clients/test_publishers.py::test_poetry_publishes_and_is_refused_other_bytes",
               "clients/test_publishers.py::test_the_address_of_uploads_answers_get_by_405"])
@catches("server/bin/index-legacy-upload", 'connection.request("PUT", path, upload.data, upload.headers(token))',
         'connection.request("GET", path, upload.data, upload.headers(token))',
         also=["test_a_form_is_taken",
               "clients/test_forms_service.py::test_slow_and_silent_clients_are_ended_and_others_are_served"])
@catches("server/bin/index-legacy-upload",
         'return {**found, "X-Requires-Python": self.requires} if self.requires else found', "return found",
         ("server/bin/index-legacy-upload", 'other metadata stays in the file.")', 'thank you.")'),
         ("server/bin/index-legacy-upload", 'else "is there already, with the same bytes"', 'else "uploaded"'),
         also=["test_the_same_bytes_are_there_already_and_others_are_refused", "test_a_reply_says_what_is_kept",
               "clients/test_publishers.py::test_flit_publishes"])
def test_a_form_with_a_wheel_is_taken(service, forms_index, says, looked):
    file, data = WHEEL.format("1.0"), os.urandom(1000)
    says("a form", service.post(file, data, requires_python=">=3.7,\n <4", summary="é"), 200)
    has_bytes(forms_index, file, data, looked)
    page = forms_index.ask("GET", "/simple/frob/", Accept="text/html")[2]
    declared = b'data-requires-python="&gt;=3.7, &lt;4"'
    looked(declared in page, Seen("the page", page, declared))


def test_the_same_bytes_are_there_already_and_others_are_refused(service, says):
    file, data = WHEEL.format("1.1"), os.urandom(1000)
    reply = service.post(file, data)
    says("a form", reply, 200)
    assert f"{file} uploaded" in reply[2]
    again = service.post(file, data)
    says("the same bytes again", again, 200)
    assert "is there already" in again[2], again
    says("other bytes", service.post(file, b"x"), 409, "FileNameTaken", "Raise the version")


def test_a_reply_says_what_is_kept(service):
    reply = service.post(WHEEL.format("1.2"), DATA)
    assert reply and "other metadata stays in the file" in reply[2], reply


TAKEN = {
    "no digest": (WHEEL.format("1.3"), DATA, {"sha256_digest": None}),
    "a digest in capitals": (WHEEL.format("1.4"), DATA, {"sha256_digest": sha256(DATA).upper()}),
    "a source archive": ("frob-1.0.tar.gz", DATA, {}),
    "a version with + and !": (WHEEL.format("1!1.0+fix.1"), DATA, {}),
    "a file of 16 MiB": ("frob-1.1.tar.gz", bytes(LARGEST), {}),
    "3000 fields more": (WHEEL.format("1.5"), DATA, {f"classifiers_{at}": "x" for at in range(3000)}),
}


@pytest.mark.parametrize("which", TAKEN)
def test_a_form_is_taken(service, forms_index, says, looked, which):
    file, data, fields = TAKEN[which]
    says(which, service.post(file, data, **fields), 200)
    has_bytes(forms_index, file.replace("+", "%2B"), data, looked)


@catches("server/bin/index-legacy-upload", '.decode("ascii").partition(":")', '.decode("ascii").rpartition(":")',
         also=["clients/test_publishers.py::test_twine_uploads_with_a_token_that_has_colons"])
def test_a_token_with_colons_is_taken_whole(service, says):
    says("a form", service.post("ham-1.0.tar.gz", DATA, "token:of:bob"), 200)


REFUSED_BY_THE_INDEX = {
    "another digest": (WHEEL.format("1.6"), DATA, "office", {"sha256_digest": sha256(b"")}, 422, ["DigestMismatch"]),
    "a malformed digest": (WHEEL.format("1.6"), DATA, "office", {"sha256_digest": "12"}, 400, ["BadDigest"]),
    "a token of nobody": (WHEEL.format("1.6"), DATA, "x", {}, 401,
                          ["BadToken", "the password has to be the token"]),
    "a user who is not an owner": (WHEEL.format("1.6"), DATA, "abc", {}, 403,
                                   ["NotOwner", "do this: office. Ask", "add_owner"]),
    "a name that nobody holds": ("spam-1.0.tar.gz", DATA, "office", {}, 404, ["NoProject", "claim it first"]),
    "Requires-Python of 600 bytes": (WHEEL.format("1.6"), DATA, "office", {"requires_python": ">" + "3" * 600}, 400,
                                     ["BadText"]),
}


@catches("server/bin/index-legacy-upload", 'if name == "NotOwner" else {}', 'if name == "Not" else {}',
         case="a user who is not an owner")
@pytest.mark.parametrize("which", REFUSED_BY_THE_INDEX)
def test_a_refusal_of_the_index_is_told_in_a_sentence(service, says, which):
    file, data, token, fields, status, reason = REFUSED_BY_THE_INDEX[which]
    says(which, service.post(file, data, token, **fields), status, *reason)


ALONE = "uploads of files alone"
# by what is wrong, the file, the fields that differ, the status and what is said
REFUSED_BY_THE_SERVICE = {
    "a byte above 16 MiB": ("frob-1.2.tar.gz", {"data": bytes(LARGEST + 1)}, 413, ["16,777,216 bytes"]),
    "a .zip": ("frob-5.0.zip", {"name": "frob"}, 400, [".whl and .tar.gz alone"]),
    "a version with a hyphen": ("frob-1.0-beta1.tar.gz", {"name": "frob"}, 400,
                                ["the version has a hyphen", "1.0b1 for 1.0-beta1"]),
    "an egg": ("frob-5.0.egg", {"name": "frob"}, 400, [".whl and .tar.gz alone"]),
    "an attestation": (REFUSED, {"attestations": "[]"}, 400, ["can't keep attestations"]),
    "another action": (REFUSED, {"action": "submit"}, 400, [ALONE]),
    "no action": (REFUSED, {"action": None}, 400, [ALONE]),
    "another version of the form": (REFUSED, {"protocol_version": "2"}, 400, [ALONE]),
    "another project in the metadata": (REFUSED, {"name": "spam"}, 400, ["'frob'", "'spam'"]),
    "a name that no path has": ("../frob-5.0.tar.gz", {"name": None}, 400, ["BadFileName"]),
    "a name with a line break": ('frob-5.0"\r\nX-Bad: y\r\n.whl', {}, 400, []),
    "Requires-Python with other letters": (REFUSED, {"requires_python": "≥3"}, 400, ["requires_python"]),
    "Requires-Python that is not a list": (REFUSED, {"requires_python": "3.8 or later"}, 400,
                                           ["'3.8 or later'", "build it again"]),
    "Requires-Python of 5000 bytes": (REFUSED, {"requires_python": "3" * 5000}, 400, ["requires_python"]),
}


@pytest.mark.parametrize("which", REFUSED_BY_THE_SERVICE)
def test_a_form_is_refused_and_the_index_is_not_asked(service, forms_index, says, looked, which):
    file, fields, status, reason = REFUSED_BY_THE_SERVICE[which]
    says(which, service.post(file, **{"data": DATA, **fields}), status, *reason)
    has_none(forms_index, REFUSED, looked)


# by what is wrong, the headers that differ, the status and what is said
REFUSED_BY_ITS_HEAD = {
    "no password": ({"Authorization": None}, 401, ["no token came", "__token__"]),
    "a password of another kind": ({"Authorization": "Bearer office"}, 401, ["no token came"]),
    "a malformed password": ({"Authorization": "Basic !!"}, 401, ["no token came"]),
    "a token with a line break": ({"token": "a\r\nX-Index-Token: office"}, 401, ["no token came"]),
    "not a form": ({"Content_Type": "application/json"}, 400, ["not a form"]),
    "a form without a boundary": ({"Content_Type": "multipart/form-data"}, 400, []),
    "no length": ({"Content_Length": None}, 411, []),
    "chunks": ({"Transfer_Encoding": "chunked"}, 411, []),
    "a length that is not a number": ({"Content_Length": "-1"}, 411, []),
    "a length of a GiB": ({"Content_Length": 1 << 30}, 413, ["16,777,216"]),
    "GET": ({"method": "GET"}, 405, ["POST alone"]),
}


@pytest.mark.parametrize("which", REFUSED_BY_ITS_HEAD)
def test_a_head_is_refused(service, forms_index, says, looked, which):
    headers, status, reason = REFUSED_BY_ITS_HEAD[which]
    # a body that is not read may reset the connection before its reply is
    body = b"" if which in ("GET", "a length of a GiB") else form(MALFORMED, DATA)
    says(which, service.ask(body, **headers), status, *reason)
    has_none(forms_index, MALFORMED, looked)


WHOLE = form(MALFORMED, DATA)
NO_NAME = f"--{BOUNDARY}\r\nContent-Disposition: form-data\r\n\r\n".encode()
MALFORMED_BODIES = {
    "no boundary": DATA, "another boundary": WHOLE.replace(BOUNDARY.encode(), b"other"),
    "more behind its end": WHOLE + b"more", "bytes before it": b"x" + WHOLE,
    "line feeds alone": WHOLE.replace(b"\r", b""),
    "a field without a name": NO_NAME + b"x\r\n" + WHOLE, "a field that stands twice": field("name", b"frob") + WHOLE,
    "two files": WHOLE[:-len(END)] + field("content", DATA, MALFORMED) + END,
    "a long head": WHOLE.replace(b"form-data", b"form-data; x=" + b"y" * 5000, 1),
    "5000 fields": field("classifiers", b"x") * 5000 + WHOLE, "no file": field(":action", b"file_upload") + END,
}
LOST_BODIES = {
    "a signature": (field("gpg_signature", b"s", f"{MALFORMED}.asc") + WHOLE, "can't keep signatures"),
    "a file beside it": (field("docs", b"s", "x.html") + WHOLE, "can't keep"),
}


@pytest.mark.parametrize("which", MALFORMED_BODIES)
def test_a_malformed_form_is_refused(service, forms_index, says, looked, which):
    says(which, service.ask(MALFORMED_BODIES[which]), 400)
    has_none(forms_index, MALFORMED, looked)


@catches("server/bin/index-legacy-upload", "if name in fields:", "if False:",
         ("server/lib/package_index/forms.py", "if name in found:", "if False:"),
         also=["test_a_form_is_refused_and_the_index_is_not_asked", "test_a_malformed_form_is_refused",
               "clients/test_publishers.py::test_twine_is_refused_a_signature"])
@pytest.mark.parametrize("which", LOST_BODIES)
def test_a_form_is_refused_of_which_something_would_be_lost(service, forms_index, says, looked, which):
    body, reason = LOST_BODIES[which]
    says(which, service.ask(body), 400, reason)
    has_none(forms_index, MALFORMED, looked)


@pytest.mark.slow
def test_a_form_that_breaks_off_at_any_byte_is_refused(service, forms_index, says, looked):
    for at in range(len(WHOLE) - 4):
        says(f"the first {at} of {len(WHOLE)} bytes", service.ask(WHOLE[:at]), 400)
    has_none(forms_index, MALFORMED, looked)
