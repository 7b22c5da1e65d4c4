"""Indexes that stand for one that is broken or busy, without a program."""
from __future__ import annotations

import socket

import pytest
from support.clients.broken import BrokenIndex, taking

HEAD = b"PUT /files/frob/frob-1.0.tar.gz HTTP/1.1\r\nX-Index-Token: office\r\nContent-Length: 6\r\n\r\n"


def test_a_busy_index_answers_behind_the_last_byte_of_a_request():
    """Else a client that a busy machine stops in its midst is answered, and then reset."""
    with BrokenIndex(taking) as busy, socket.create_connection(("127.0.0.1", busy.port), timeout=0.8) as peer:
        peer.sendall(HEAD + b"abc")
        with pytest.raises(TimeoutError):
            peer.recv(1)
        peer.sendall(b"def")
        peer.settimeout(60)
        assert peer.recv(1 << 16).startswith(b"HTTP/1.1 201 Created\r\n")
