"""Clients that are gone before their reply came, and the moment of a request."""
import fcntl
import json
import os
import signal
import socket
import struct
import termios
import time

import pytest
from support.seen import Seen
from support.serving import Index, sha256

HELD = b"GET /names/frob HTTP/1.1\r\nHost: index\r\n\r\n"
CLAIM = b'{"do":"claim","name":"frob"}'
# how long a condition is waited for
PATIENCE = 60


def wait_for(holds):
    """Whether a condition comes to hold."""
    until = time.monotonic() + PATIENCE
    while not holds() and time.monotonic() < until:
        time.sleep(0.02)
    return holds()


def has_arrived(peer):
    """Whether the other side's kernel has all that was sent."""
    return not struct.unpack("i", fcntl.ioctl(peer, termios.TIOCOUTQ, bytes(4)))[0]


def resets(port, message):
    """Connects, sends this, and resets the connection once it has arrived."""
    with socket.create_connection(("127.0.0.1", port), timeout=60) as peer:
        peer.sendall(message)
        assert wait_for(lambda: has_arrived(peer))
        peer.setsockopt(socket.SOL_SOCKET, socket.SO_LINGER, struct.pack("ii", 1, 0))


def test_a_reset_in_a_head_is_told_by_one_line_and_the_next_is_served(index, looked):
    resets(index.port, HELD[:20])
    status, _, body = index.ask("GET", "/names/frob")
    looked((status, body) == (200, b'{"name":"frob","state":"free"}'), Seen("/names/frob", (status, body), 200))
    line = b"index: connection: ReadFault\n"
    looked(wait_for(lambda: index.errors() == line), Seen("standard error", index.errors(), line))


def test_a_client_that_is_gone_before_its_reply_is_told_by_one_line_and_its_request_stands(index, looked):
    # stopped, the program can't answer before the client is gone
    os.kill(index.process.pid, signal.SIGSTOP)
    try:
        head = b"POST /requests HTTP/1.1\r\nX-Index-Token: office\r\nContent-Length: %d\r\n\r\n" % len(CLAIM)
        resets(index.port, head + CLAIM)
    finally:
        os.kill(index.process.pid, signal.SIGCONT)
    status, _, body = index.ask("GET", "/names/frob")
    looked(status == 200 and b'"state":"held"' in body, Seen("/names/frob", (status, body), "held"))
    line = b"index: connection: WriteFault\n"
    looked(wait_for(lambda: index.errors() == line), Seen("standard error", index.errors(), line))


def opened(index):
    """The moment at which a case was opened just now, and the seconds of the clock before and behind. The requests
    before it came in an earlier second."""
    index.request(do="add_user", user="ann", office=False, token_sha256=sha256(b"abc"))
    index.claim("frob")
    asked = int(time.time())
    assert wait_for(lambda: int(time.time()) > asked)
    before = int(time.time())
    index.request("abc", do="open_case", name="frob", kind="reuse", contact="mail", work="a fork", why="unused")
    behind = int(time.time())
    return json.loads(index.ask("GET", "/names/frob")[2])["case"]["opened"], before, behind


def test_a_case_has_the_moment_of_the_clock(index):
    moment, before, behind = opened(index)
    assert before <= moment <= behind, Seen("a case", moment, f"{before} to {behind}")


@pytest.mark.parametrize("at", [7])
def test_a_case_has_the_moment_that_the_program_was_given(program, at):
    with Index(program, at=at) as index:
        assert opened(index)[0] == at
