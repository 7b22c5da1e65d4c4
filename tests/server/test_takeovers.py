"""nginx in front of two machines, of which one serves: no request fails because it met the other one."""
from __future__ import annotations

import socket
from collections.abc import Iterator

import pytest
from support.ports import free_port
from support.server.front import Front, kept
from support.server.kept import Kept
from support.server.waits import wait_for
from support.server.watched import Closes

EACH = 24


class Takeovers(Front):
    """nginx as two-machines.conf has it, in front of two ports."""

    def __init__(self, folder: str, certificate: str, first: int, second: int):
        super().__init__(folder, certificate, first)
        self.put("index/indexes.conf", kept("two-machines.conf"),
                 **{"192.0.2.11:8080": f"127.0.0.1:{first}", "192.0.2.12:8080": f"127.0.0.1:{second}"})


@pytest.fixture
def index(program: str, folder: str) -> Iterator[Kept]:
    with Kept(program, f"{folder}/index.db") as serving:
        assert serving.claim("frob")[0] == 200
        yield serving


def asked(front: Front, name: str, looked, count: int = EACH) -> None:
    """As many of each kind are answered as one machine alone would answer them."""
    for at in range(count):
        sent = front.claim(f"{name}{at}")
        looked(sent[0] == 200 and b"accepted" in sent[2], name, at, sent)
        read = front.ask("GET", f"/simple/frob/?{name}{at}", Accept=f"text/html, x/{name}{at}")
        looked(read[0] == 200, name, at, read)
        put = front.upload(f"{name}{at}", f"{name}{at}-1.0.tar.gz", b"bytes")
        looked(put[0] == 201, name, at, put)


@pytest.mark.parametrize("serves", ["first", "second"])
def test_each_request_reaches_the_machine_that_serves(index, certificate, folder, looked, serves):
    ports = (index.port, free_port()) if serves == "first" else (free_port(), index.port)
    with Takeovers(f"{folder}/front", certificate, *ports) as front:
        asked(front, serves, looked)


def test_when_the_other_machine_serves_each_request_reaches_that(program, folder, index, certificate, looked):
    """There and back, without a word to nginx."""
    other = Kept(program, index.path)
    with Takeovers(f"{folder}/front", certificate, index.port, other.port) as front:
        asked(front, "x", looked, 2)
        index.stop()
        with other:
            assert wait_for(lambda: front.ask("GET", "/health")[0] == 200)
            asked(front, "y", looked)
        index.is_wanted.set()
        assert wait_for(lambda: front.ask("GET", "/health")[0] == 200)
        asked(front, "z", looked)


@pytest.mark.slow
def test_a_machine_that_is_silent_is_passed_by(index, certificate, folder, looked):
    """Nobody answers there, as if its power were gone: nginx waits proxy_connect_timeout, and asks the other one."""
    with socket.socket() as silent, socket.socket() as first:
        silent.bind(("127.0.0.1", 0))
        silent.listen(0)
        # the one place of its queue is taken, so the kernel drops who else would connect
        first.connect(silent.getsockname())
        with Takeovers(f"{folder}/front", certificate, silent.getsockname()[1], index.port) as front:
            asked(front, "x", looked, 2)


def test_what_a_machine_took_before_it_went_is_sent_again_but_no_post(index, certificate, folder):
    with Closes() as machine, Takeovers(f"{folder}/front", certificate, machine.port, index.port) as front:
        reply = front.claim("egg")
        assert reply[0] == 503 and machine.seen == [b"POST"], reply
        assert index.ask("GET", "/names/egg")[2].count(b'"free"') == 1
        assert wait_for(lambda: front.upload("frob", "frob-1.0.tar.gz", b"bytes")[0] in (200, 201)
                        and b"PUT" in machine.seen)
