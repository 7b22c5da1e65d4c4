"""Clients that wait are answered in the order in which they came, each by its reply alone."""
import os
import signal
import socket
from contextlib import ExitStack, contextmanager

from support.refusals import rests
from support.serving import JSON_PAGE, Index

CLAIMS, HUNDRED = 8, 100


def waiting(port, message):
    """A client that has sent its message. The kernel has put its connection behind those that came before."""
    peer = socket.create_connection(("127.0.0.1", port), timeout=60)
    peer.sendall(message)
    return peer


def claim(name):
    body = b'{"do":"claim","name":"%s"}' % name
    return b"POST /requests HTTP/1.1\r\nX-Index-Token: office\r\nContent-Length: %d\r\n\r\n" % len(body) + body


def reply_on(peer):
    """All that a client is sent until its connection is closed."""
    reply = b""
    with peer:
        while more := peer.recv(1 << 16):
            reply += more
    return reply


@contextmanager
def stopped(process):
    """The server is stopped meanwhile."""
    os.kill(process.pid, signal.SIGSTOP)
    try:
        yield
    finally:
        os.kill(process.pid, signal.SIGCONT)


def test_clients_that_wait_are_answered_in_their_order(index):
    """While the server is stopped, each second client claims a name, and the others look at the names by turns."""
    look = b"GET /simple/ HTTP/1.1\r\nAccept: " + JSON_PAGE.encode() + b"\r\n\r\n"
    with stopped(index.process):
        peers = [waiting(index.port, it) for number in range(CLAIMS) for it in (claim(b"n%d" % number), look)]
    seen = [reply_on(peer).count(b'"name":') for peer in peers]
    assert seen[1::2] == [*range(1, CLAIMS + 1)]


ADD_ANN = (b'{"do":"add_user","user":"ann","office":false,'
           b'"token_sha256":"ba7816bf8f01cfea414140de5dae2223b00361a396177a9cb410ff61f20015ad"}')
# a new user, whether a name is held, and a client that is gone in the midst of its head; with the reply to each
EXCHANGES = {
    b"POST /requests HTTP/1.1\r\nX-Index-Token: office\r\nContent-Length: 127\r\n\r\n" + ADD_ANN:
        b"HTTP/1.1 200 OK\r\nContent-Type: application/json\r\nContent-Length: 21\r\nConnection: close\r\n\r\n"
        b'{"answer":"accepted"}',
    b"GET /names/frob HTTP/1.1\r\nHost: index\r\n\r\n":
        b"HTTP/1.1 200 OK\r\nContent-Type: application/json\r\nContent-Length: 30\r\nConnection: close\r\n\r\n"
        b'{"name":"frob","state":"free"}',
    b"GET /simple/ HTTP/1.1\r\nHo":
        b"HTTP/1.1 400 Bad Request\r\nContent-Type: application/json\r\nContent-Length: 37\r\nConnection: close\r\n\r\n"
        b'{"answer":"message","name":"BadHead"}',
}


def test_each_client_gets_its_reply_and_nothing_else(program):
    """Clients that each send a message and no more, of which as many are answered as the server is to answer."""
    with Index(program, requests=len(EXCHANGES), at=2) as index:
        with stopped(index.process):
            peers = [waiting(index.port, message) for message in EXCHANGES]
            for peer in peers:
                peer.shutdown(socket.SHUT_WR)
        assert [reply_on(peer) for peer in peers] == [*EXCHANGES.values()]
        assert (index.process.wait(timeout=60), index.errors()) == (0, b"")


def test_all_that_wait_are_accepted_before_each_message(index):
    """The system's queue has room for 128, so that it has for a second hundred once the first is out of it. (A client
    that finds the queue full asks again after a second and longer, and is let in by nobody here.)"""
    with ExitStack() as peers:
        first = peers.enter_context(socket.create_connection(("127.0.0.1", index.port), timeout=60))
        for _ in range(HUNDRED):
            peers.enter_context(socket.create_connection(("127.0.0.1", index.port), timeout=60))
        first.sendall(b"GET /names/x HTTP/1.1\r\n\r\n")
        assert first.recv(1 << 16).startswith(b"HTTP/1.1 200 ")
        # until it waits for the message of the next, the queue is emptied
        rests(index.process)
        for _ in range(HUNDRED):
            peers.enter_context(socket.create_connection(("127.0.0.1", index.port), timeout=5))
