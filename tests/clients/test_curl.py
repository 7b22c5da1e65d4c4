"""What curl gets from an index with packages, without nginx between: each status, each type of a page, and bytes."""
import os
import socket
from collections.abc import Callable, Iterator

import pytest
from support.clients.curl import Curl, bytes_of, fill
from support.packages import make_packages
from support.seen import Seen
from support.serving import JSON_PAGE, Index, make_index, sha256

FILE = "frob-1.0-py3-none-any.whl"
LARGEST, LARGEST_REQUEST = 16_777_216, 65_536
TYPES = [JSON_PAGE, JSON_PAGE.replace("json", "html"), "text/html"]


@pytest.fixture
def packages(folder: str) -> dict:
    os.mkdir(f"{folder}/packages")
    return make_packages(f"{folder}/packages")


@pytest.fixture
def curl(program: str, folder: str, packages: dict, looked: Callable) -> Iterator[Curl]:
    """curl, at an index with two users, two names and their files, whose requests came by curl. In the end the program
    has said nothing on standard error."""
    path = make_index(program, f"{folder}/index.db")
    with Index(program, path=path) as index:
        made = Curl(index.port, folder, looked)
        fill(made, packages)
        made.port, made.path = index.port, path
        yield made
        assert index.errors() == b""


def test_the_same_upload_again_is_there_already(curl, packages):
    curl.put("abc", "frob", FILE, packages["frob"][FILE][0]).tells(200, b'{"answer":"already"}')


def test_a_file_has_its_bytes_and_its_length(curl, packages):
    data = bytes_of(packages["frob"][FILE][0])
    curl.ask(f"/files/frob/{FILE}").tells(200, None, "Content-Type: application/octet-stream")
    curl.has_bytes(data)
    curl.ask(f"/files/frob/{FILE}", "-I").tells(200, None, f"Content-Length: {len(data)}")


def test_a_name_that_is_not_normal_is_sent_to_its_page(curl):
    curl.ask("/names/FROB").tells(200, b'"owners":["ann"]')
    curl.ask("/simple").tells(301, None, "Location: /simple/")
    curl.ask("/simple/Spam_Nest/").tells(301, None, "Location: /simple/spam-nest/")


def test_a_malformed_request_is_refused_by_its_fault(curl):
    curl.ask("/requests", "-d", "{}").tells(400, b'"name":"BadBody"')
    many = [word for number in range(65) for word in ("-H", f"X-Many-{number}: x")]
    curl.ask("/simple/", *many).tells(400, b'"name":"BadHead"')
    curl.ask("/requests", "-d", "{}", "-H", "Transfer-Encoding: chunked").tells(400, b'"name":"BadLength"')
    curl.ask("/requests", "-X", "POST").tells(411, b'"name":"NoLength"')


def test_who_may_not_is_refused(curl, packages):
    curl.post("x", do="claim", name="more").tells(401, None, "WWW-Authenticate: Index-Token")
    curl.put("hello", "frob", "frob-7.tar.gz", packages["frob"][FILE][0]).tells(403, b'"name":"NotOwner"')


def test_what_is_not_there_is_not_found(curl):
    for path in ("/nowhere", "/pypi/frob/json", "/pypi"):
        curl.ask(path).tells(404, b'"name":"NoRoute"')
    curl.ask("/simple/more/").tells(404, b'"name":"NoProject"')
    curl.ask("/files/frob/frob-9.tar.gz").tells(404, b'"name":"NoFile"')


def test_a_page_is_not_deleted_nor_given_as_no_type(curl):
    curl.ask("/simple/", "-X", "DELETE").tells(405, b'"name":"BadMethod"', "Allow: GET, HEAD")
    curl.ask("/simple/frob/", "-H", "Accept: */*;q=0").tells(406, b'"name":"NotAcceptable"')


def test_what_is_taken_is_not_given_again(curl, packages):
    path = packages["frob"][FILE][0]
    curl.post("hello", do="claim", name="frob").tells(409, b'"name":"NameHeld"')
    curl.put("abc", "frob", FILE, __file__).tells(409, b'"name":"FileNameTaken"')
    curl.put("abc", "frob", "frob-7.tar.gz", path, digest=sha256(b"")).tells(422, b"DigestMismatch")


@pytest.mark.parametrize("path, method, length", [("/files/frob/frob-7.tar.gz", "PUT", LARGEST + 1),
                                                  ("/requests", "POST", LARGEST_REQUEST + 1)])
def test_a_length_above_the_limit_is_refused_by_the_head_alone(curl, path, method, length):
    curl.ask(path, "-X", method, "-H", f"Content-Length: {length}").tells(413, b'"name":"BodyTooLarge"')


@pytest.mark.slow
def test_a_file_of_just_the_limit_is_taken_given_back_and_deleted(curl, folder):
    path, file = f"{folder}/large", "/files/frob/frob-0.1.tar.gz"
    with open(path, "wb") as large:
        large.write(os.urandom(1 << 16) * 256)
    curl.put("abc", "frob", "frob-0.1.tar.gz", path).tells(201)
    curl.ask(file).tells(200)
    curl.has_bytes(bytes_of(path))
    curl.ask(file, "-X", "DELETE", "-H", "X-Index-Token: abc").tells(200, b'{"answer":"accepted"}')


@pytest.mark.parametrize("accept", TYPES)
def test_a_page_comes_as_each_type_and_its_head_alone(curl, accept):
    curl.ask("/simple/frob/", "-H", f"Accept: {accept}").tells(200, b"frob-1.0", f"Content-Type: {accept}")
    length = len(curl.body)
    curl.ask("/simple/frob/", "-I", "-H", f"Accept: {accept}").tells(200, None, f"Content-Length: {length}")


def test_the_root_page_lists_the_projects(curl):
    curl.ask("/simple/").tells(200, b'<a href="/simple/spam-nest/">Spam.Nest</a><br>\n')


ASKED = b"GET /simple/frob/ HTTP/1.1\r\nHost: x\r\n\r\n"
SHORT = b"PUT /files/frob/frob-7.tar.gz HTTP/1.1\r\nX-Index-Token: abc\r\nContent-Length: 4\r\n\r\nabc"


def whole(port, *pieces):
    """All bytes of the reply to a message that comes in these pieces, and then ends."""
    with socket.create_connection(("127.0.0.1", port), timeout=60) as peer:
        for piece in pieces:
            peer.sendall(piece)
        peer.shutdown(socket.SHUT_WR)
        return b"".join(iter(lambda: peer.recv(1 << 16), b""))


def test_a_reply_ends_at_its_length_and_closes_the_connection(curl, looked):
    reply = whole(curl.port, ASKED)
    head, end, body = reply.partition(b"\r\n\r\n")
    length = f"\r\nContent-Length: {len(body)}\r\n".encode()
    looked(length in head, Seen(ASKED, head, length))
    looked(head.endswith(b"\r\nConnection: close"), Seen(ASKED, head, "Connection: close"))
    headless = whole(curl.port, ASKED.replace(b"GET", b"HEAD"))
    looked(headless == head + end, Seen("HEAD", headless[:200], head + end))


def test_a_request_may_come_in_single_bytes(curl):
    assert whole(curl.port, *(ASKED[at:at + 1] for at in range(len(ASKED)))) == whole(curl.port, ASKED)


@pytest.mark.parametrize("message, fault", [(b"", b"BadHead"), (ASKED[:20], b"BadHead"), (SHORT, b"ShortBody")],
                         ids=["no byte", "half a head", "a byte of the body too few"])
def test_a_message_that_breaks_off_is_refused(curl, looked, message, fault):
    got = whole(curl.port, message)
    is_refused = got.startswith(b"HTTP/1.1 400 Bad Request\r\n") and b'"name":"%b"' % fault in got
    looked(is_refused, Seen(message, got[:200], fault))
