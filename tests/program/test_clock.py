"""The clock that `serve` asks for the moment of a request: one that can't be read, or is before 1970, ends it before
anything is done, and a moment that is given needs none."""
import json

import pytest
from support.running import built
from support.serving import ACCEPTED, Index, accepted, make_index, reply_to, sha256

# the last moment before 1970, one of long ago, and no clock
NO_MOMENTS = "-1", "-5000000000", "none"
CLAIM = (b"POST /requests HTTP/1.1\r\nHost: localhost\r\nX-Index-Token: office\r\nContent-Length: 28\r\n\r\n"
         b'{"do":"claim","name":"frob"}')


@pytest.fixture
def by_clock(folder):
    """What is added to the environment of a program that has this clock."""
    return lambda clock: {"LD_PRELOAD": built("set_clock", folder), "CLOCK": clock}


@pytest.fixture
def path(program, folder):
    return make_index(program, f"{folder}/index.db")


def standing(index, name):
    return json.loads(index.ask("GET", f"/names/{name}")[2])


@pytest.mark.parametrize("clock", NO_MOMENTS)
def test_a_clock_that_gives_no_moment_ends_serve_before_anything_is_done(program, path, by_clock, clock):
    with Index(program, path=path, setting=by_clock(clock)) as index:
        assert reply_to(index.port, CLAIM) == b""
        assert (index.process.wait(timeout=60), index.errors()) == (1, b"index: Clock\n")
    with Index(program, path=path) as index:
        assert standing(index, "frob")["state"] == "free"


@pytest.mark.parametrize("clock", NO_MOMENTS)
def test_a_given_moment_needs_no_clock(program, path, by_clock, clock):
    with Index(program, path=path, at=1_764_000_000, setting=by_clock(clock)) as index:
        assert reply_to(index.port, CLAIM).endswith(ACCEPTED)
        assert standing(index, "frob")["state"] == "held"


@pytest.mark.parametrize("moment", [0, 1, 1_764_000_000])
def test_a_request_has_the_whole_seconds_of_the_clock(program, path, by_clock, moment):
    """The clock is a nanosecond before the next second."""
    case = {"kind": "reuse", "contact": "mail", "work": "a fork", "why": "unused"}
    with Index(program, path=path, setting=by_clock(str(moment))) as index:
        accepted(index.request(do="add_user", user="ann", office=False, token_sha256=sha256(b"abc")))
        accepted(index.claim("frob"))
        accepted(index.request("abc", do="open_case", name="frob", **case))
        assert standing(index, "frob")["case"]["opened"] == moment
