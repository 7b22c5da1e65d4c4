"""Malformed and odd messages: each is answered by one whole reply, or its connection ends, and nothing else changes.

Well-formed messages are cut at each place; others are changed at random, `--rounds N` of them: method, target, version,
headers, lengths, texts and bytes, with a second message behind. None bears a token that somebody has."""
import json
import socket
import struct
import time
from contextlib import suppress

import pytest
from support.judge import copy_index, seen_by_sqlite
from support.running import run
from support.serving import JSON_PAGE, Index, make_index, parts_of, reply_to
from support.messages import TOO_LONG, WELL_FORMED, cut_messages_of, odd_message
from support.workload import REQUESTS, lines_of

# messages at random of all batches together
ROUNDS_OF_ALL, BATCHES = 10_000, 20
STATUSES = {200, 201, 301, 400, 401, 403, 404, 405, 406, 409, 411, 413, 422}
ENDS = {b"index: connection: ReadFault", b"index: connection: WriteFault", b"index: connection: Cut"}
PATIENCE = 60
# up to so many bytes come in one piece, and are taken in before the connection is closed
AT_ONCE = 4_000
LOOKED_AT = ("/simple/", "/simple/frob/", "/simple/egg/", "/names/frob", "/names/spam", "/names/egg",
             "/files/frob/frob-1.0.tar.gz")


@pytest.fixture(scope="module")
def filled_index(program, shared_folder):
    """An index with something of everything."""
    path = make_index(program, f"{shared_folder}/filled.db")
    run(program, "apply", "--db", path, given=b"".join(lines_of(REQUESTS)))
    return path


@pytest.fixture
def index(program, filled_index, folder, looked):
    """A copy of it that serves. What a reader sees, the rows, and standard error are looked at behind each test."""
    path = copy_index(filled_index, f"{folder}/index.db")
    rows = seen_by_sqlite(path)
    with Index(program, path=path) as serving:
        serving.broken, before = 0, shown(serving.port)
        yield serving
        looked(shown(serving.port) == before, "all is as before")
        looked(serving.process.poll() is None, "the program runs")
        said = serving.errors().splitlines()
        looked({*said} <= ENDS, said[-5:])
    looked(seen_by_sqlite(path) == rows, "the rows are as before")


def shown(port):
    """What a reader of the index sees, who ends its side: that no reply waits for that is asked by a test."""
    return [ends_its_side(port, f"GET {path} HTTP/1.1\r\n\r\n".encode(), None)[0] for path in LOOKED_AT]


def read_all(peer):
    """What comes until the connection ends, and whether it was reset."""
    reply = b""
    try:
        while more := peer.recv(1 << 16):
            reply += more
    except ConnectionResetError:
        return reply, True
    return reply, False


def connected(port):
    peer = socket.create_connection(("127.0.0.1", port), timeout=PATIENCE)
    peer.setsockopt(socket.IPPROTO_TCP, socket.TCP_NODELAY, 1)
    return peer


def ends_its_side(port, message, _):
    """The client sends all and ends its side."""
    with connected(port) as peer:
        with suppress(OSError):
            peer.sendall(message)
            peer.shutdown(socket.SHUT_WR)
        return read_all(peer)


def in_pieces(port, message, chance):
    """It comes in pieces, which may be single bytes, and the client ends its side."""
    with connected(port) as peer:
        with suppress(OSError):
            at = 0
            while at < len(message):
                count = chance.choice((1, 1, 2, 10, 100, len(message)))
                peer.sendall(message[at:at + count])
                at += count
            peer.shutdown(socket.SHUT_WR)
        return read_all(peer)[0], True


def breaks_off(port, message, chance):
    """The client goes before it reads, and sends a part of it."""
    with connected(port) as peer:
        peer.sendall(message[:chance.randrange(len(message) + 1)])


def resets(port, message, chance):
    """The client resets the connection, behind a part of the message."""
    with connected(port) as peer:
        peer.setsockopt(socket.SOL_SOCKET, socket.SO_LINGER, struct.pack("ii", 1, 0))
        peer.sendall(message[:chance.randrange(len(message) + 1)])
        if chance.random() < 0.5:
            time.sleep(0.0005)


WAYS = [ends_its_side] * 14 + [in_pieces] * 2 + [breaks_off] * 2 + [resets] * 2


def fault_of(reply, message):
    """Why this is not one whole reply, as a reply to any message has to be, or None."""
    parts = parts_of(reply)
    if parts is None:
        return "not one whole reply"
    status, headers, body = parts
    length, is_to_head = headers.get(b"Content-Length", b""), message.startswith(b"HEAD ")
    # empty lines may stand before a request
    has_body = not message.lstrip(b"\r\n").startswith(b"HEAD ") or body
    faults = {
        "its status": status not in STATUSES, "its connection": headers.get(b"Connection") != b"close",
        "its length": not length.isdigit() or has_body and int(length) != len(body),
        "a body to HEAD": body and is_to_head, "Location": (status == 301) != (b"Location" in headers),
        "Allow": (status == 405) != (b"Allow" in headers),
        "no object": body and headers.get(b"Content-Type") == b"application/json" and not is_object(body)}
    return next((what for what, is_so in faults.items() if is_so), None)


def is_object(body):
    try:
        return isinstance(json.loads(body), dict)
    except ValueError:
        return False


def fault_behind(index, way, message, chance):
    """What is wrong behind a message that was sent in a way, or None."""
    came = way(index.port, message, chance)
    if came is None:
        begun = time.monotonic()
        reply = reply_to(index.port, WELL_FORMED[4], PATIENCE)
        is_well = reply.startswith(b"HTTP/1.1 200 OK") and time.monotonic() - begun < PATIENCE / 2
        return None if is_well else f"the next is answered {reply[:200]!r}"
    reply, was_reset = came
    if not reply:
        return None if was_reset and (len(message) > AT_ONCE or way is in_pieces) else "no reply"
    return fault_of(reply, message)


def told(way, message, fault):
    return f"{way.__name__} {message[:300]!r} of {len(message)} bytes: {fault}"


def name_of(message):
    """A test's name for a message: its first line."""
    return message.split(b"\r\n")[0].decode().replace("/", "_").replace(" ", "-")


@pytest.mark.parametrize("message", [*WELL_FORMED, *TOO_LONG], ids=name_of)
def test_answered_before_the_client_ends_its_side(index, looked, message):
    """Also one whose head has too many lines before it ends."""
    looked(fault_of(reply_to(index.port, message, PATIENCE), message) is None)


@pytest.mark.parametrize("message", WELL_FORMED, ids=name_of)
def test_cut_at_each_place(index, looked, chance, message):
    for cut in cut_messages_of(message):
        fault = fault_behind(index, ends_its_side, cut, chance)
        looked(fault is None, told(ends_its_side, cut, fault))


@pytest.mark.parametrize("batch", range(BATCHES))
def test_odd_at_random(index, looked, chance, pytestconfig, batch):
    for _ in range(-(-(pytestconfig.option.rounds or ROUNDS_OF_ALL) // BATCHES)):
        way, message = chance.choice(WAYS), odd_message(chance)
        fault = fault_behind(index, way, message, chance)
        looked(fault is None, told(way, message, fault))


@pytest.mark.parametrize("count", [1, 2, 3, 4, 5, 8, 60])
def test_the_type_is_chosen_by_all_accept_headers(index, looked, count):
    """Only the last of so many headers names a type that can be served; without it there is none."""
    others = b"Accept: image/png\r\n" * (count - 1)
    for last, wanted in ((JSON_PAGE.encode(), 200), (b"image/gif", 406)):
        message = b"GET /simple/ HTTP/1.1\r\n" + others + b"Accept: " + last + b"\r\n\r\n"
        status, headers, _ = parts_of(reply_to(index.port, message, PATIENCE)) or (0, {}, b"")
        looked(status == wanted, f"{count} headers, the last of which is {last}", status)
        looked(status != 200 or headers[b"Content-Type"] == last, headers)
