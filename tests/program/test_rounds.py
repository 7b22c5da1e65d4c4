"""`serve --rounds N` answers the connections of `--requests` N times, and the index is open throughout."""
import os
import signal
import socket

import pytest
from support.serving import ALREADY, Index, is_accepted, make_index

LOOK = b"GET /names/frob HTTP/1.1\r\nHost: index\r\n\r\n"
OK = b"HTTP/1.1 200 OK\r\n"


def connected(port):
    return socket.create_connection(("127.0.0.1", port), timeout=60)


def reply_on(peer):
    """All that comes on a connection until the server closes it."""
    reply = b""
    with peer:
        while more := peer.recv(1 << 16):
            reply += more
    return reply


def waiting(port):
    """A client that has sent its message."""
    peer = connected(port)
    peer.sendall(LOOK)
    return peer


def refuses(port):
    """Whether nothing listens there."""
    with socket.socket() as peer:
        return peer.connect_ex(("127.0.0.1", port)) != 0


@pytest.mark.parametrize("requests, rounds", [(2, 3), (3, 2), (1, 5)])
def test_the_rounds_are_served_one_after_another(program, requests, rounds):
    """After the last connection of the last round the program ends with status 0 and has told of no fault."""
    with Index(program, requests=requests, rounds=rounds) as index:
        for number in range(requests * rounds):
            assert index.process.poll() is None, f"it ended after {number} connections"
            assert index.ask("GET", "/names/frob")[0] == 200
        assert index.process.wait(timeout=60) == 0
        assert (index.errors(), refuses(index.port)) == (b"", True)


def test_a_round_sees_what_the_one_before_accepted(program):
    with Index(program, requests=1, rounds=3) as index:
        assert is_accepted(index.claim("frob"))
        assert b'"state":"held"' in index.ask("GET", "/names/frob")[2]
        assert index.claim("frob")[2] == ALREADY
        assert index.process.wait(timeout=60) == 0


def test_what_waits_at_the_end_of_a_round_is_answered_in_the_next(program):
    """While the server is stopped, as many clients send their messages as two rounds have."""
    with Index(program, requests=2, rounds=2) as index:
        os.kill(index.process.pid, signal.SIGSTOP)
        try:
            peers = [waiting(index.port) for _ in range(4)]
        finally:
            os.kill(index.process.pid, signal.SIGCONT)
        replies = [reply_on(peer) for peer in peers]
        assert [reply.startswith(OK) for reply in replies] == [True] * 4
        assert index.process.wait(timeout=60) == 0


def test_one_round_is_served_if_no_number_is_given(program):
    with Index(program, requests=2) as index:
        assert [index.ask("GET", "/names/frob")[0] for _ in range(2)] == [200, 200]
        assert index.process.wait(timeout=60) == 0


@pytest.mark.parametrize("number", [signal.SIGTERM, signal.SIGKILL])
def test_a_signal_ends_a_later_round_and_what_it_acknowledged_is_there(program, folder, number):
    path = make_index(program, f"{folder}/index.db")
    with Index(program, path=path, requests=1, rounds=1_000_000) as index:
        assert is_accepted(index.claim("frob"))
        assert is_accepted(index.claim("egg"))
        with connected(index.port):
            index.process.send_signal(number)
            assert index.process.wait(timeout=60) == -number
    with Index(program, path=path) as index:
        assert [b'"state":"held"' in index.ask("GET", f"/names/{name}")[2] for name in ("frob", "egg")] == [True] * 2


@pytest.mark.parametrize("word", ["0", "1000001", "-1", "x", "", "1.5", "18446744073709551617"])
def test_a_number_out_of_bounds_is_refused_before_a_file_is_opened(end, folder, word):
    path = f"{folder}/none.db"
    ended = end("serve", "--db", path, "--listen", "127.0.0.1:0", "--requests", "1", f"--rounds={word}")
    assert (ended.status, ended.output) == (2, b"")
    assert b"--rounds" in ended.error and not os.path.exists(path)


@pytest.mark.parametrize("word", ["1", "1000000"])
def test_the_least_and_the_most_are_taken(end, folder, word):
    """An index that is not there ends the program only after its words were read."""
    ended = end("serve", "--db", f"{folder}/none.db", "--listen", "x", "--requests", "1000000", "--rounds", word)
    assert ended.status == 1 and ended.error.startswith(b"index: Store\n")
