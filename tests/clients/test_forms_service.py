"""index-legacy-upload with slow clients, with a broken index, with one that is away, and with many clients at once."""
import socket
import time
from concurrent.futures import ThreadPoolExecutor
from contextlib import ExitStack

import pytest
from support.clients.broken import BROKEN, BrokenIndex, taking
from support.clients.forms import Service, form, message, sent
from support.planted import catches
from support.ports import free_port
from support.seen import Seen
from support.server.kept import Kept
from support.server.waits import wait_for
from support.serving import accepted

WHEEL = "frob-{}-py3-none-any.whl"
LARGEST = 16_777_216
# four forms and Python, in bytes: well below what the unit allows, which counts what connections hold too
MOST_MEMORY = 112 << 20
# A service may be told the seconds after which it ends a form, an index and a client that is silent. A bug lets it wait
# for more than a minute.
MOST_SECONDS = 60


@pytest.fixture(scope="module")
def kept_index(program, shared_folder):
    """An index with the project `frob`, which is started again whenever it ends."""
    with Kept(program, f"{shared_folder}/kept.db") as index:
        accepted(index.claim("frob"))
        yield index


@catches("server/bin/index-legacy-upload", "timer.start()", "pass",
         ("server/bin/index-legacy-upload", 'raise Refused(408, f"the', 'raise OSError(f"the'),
         ("server/bin/index-legacy-upload",
          'self.close_connection, self.file, self.note, self.caller = True, "-", "", ""',
          "self.close_connection, self.file, self.note, self.caller = True, self.connection.settimeout(100) or "
          '"-", "", ""'), also=["test_a_broken_index_is_told_and_not_waited_for"])
@pytest.mark.slow
def test_slow_and_silent_clients_are_ended_and_others_are_served(kept_index, looked):
    whole = message(form(WHEEL.format("7.0"), b"data"))
    with Service(kept_index.port, "--at-once", "4", seconds="6 30 3") as service, ThreadPoolExecutor(8) as pool:
        silent = [pool.submit(sent, service.port, text) for text in (b"", whole[:20], whole[:-1])]
        slow = pool.submit(sent, service.port, *(bytes([it]) for it in whole), pause=0.3)
        service.waits_for_threads(4)
        reply, took = sent(service.port, whole)
        is_served = reply and reply[0] == 200 and took < MOST_SECONDS
        looked(is_served, Seen("one beside four silent ones", (reply, took), 200))
        ended = [it.result() for it in silent]
        looked(all(took < MOST_SECONDS for _, took in ended), Seen("silent ones", ended, "an end after some seconds"))
        looked(ended[2][0] and ended[2][0][0] == 408, Seen("a form that breaks off", ended[2], 408))
        reply, took = slow.result()
        # it may take as long as a form and an index together; whole it would take three minutes
        looked(took < 2 * MOST_SECONDS and (not reply or reply[0] == 408), Seen("a slow one", (reply, took), 408))


@catches("server/bin/index-legacy-upload", "until = time.monotonic() + INDEX_SECONDS",
         "time.sleep(70); until = time.monotonic() + INDEX_SECONDS")
@pytest.mark.parametrize("way", BROKEN)
def test_a_broken_index_is_told_and_not_waited_for(looked, way):
    with BrokenIndex(BROKEN[way]) as broken, Service(broken.port, seconds="3 3 1") as service:
        begun = time.monotonic()
        reply = service.post(WHEEL.format("8.0"), b"data")
        took = time.monotonic() - begun
    is_told = reply and reply[0] == 503 and "the index does not answer now" in reply[1]
    looked(is_told and "the index does not answer now" in reply[2], Seen(f"an index that {way}", reply, 503))
    looked(took < MOST_SECONDS, Seen(f"an index that {way}", f"{took:.1f} s", f"below {MOST_SECONDS} s"))


@catches("server/bin/index-legacy-upload", "(0.5, 1, 2, 4)", "()",
         also=["test_an_index_that_stays_away_is_waited_for_some_seconds"])
def test_an_index_that_starts_meanwhile_is_asked_again(kept_index, looked):
    with Service(kept_index.port) as service, ThreadPoolExecutor(1) as pool:
        with kept_index.away():
            late = pool.submit(service.post, WHEEL.format("9.0"), b"data")
            # it is asked for the first time long before that
            time.sleep(2)
            assert not late.done(), late.result()
        reply = late.result()
        looked(reply and reply[0] == 200, Seen("a form while the index starts", reply, 200))


@pytest.mark.slow
def test_an_index_that_stays_away_is_waited_for_some_seconds(looked):
    with Service(free_port()) as service:
        begun = time.monotonic()
        reply = service.post(WHEEL.format("9.1"), b"data")
        took = time.monotonic() - begun
    looked(reply and reply[0] == 503 and "upload again later" in reply[1], Seen("a form", reply, 503))
    # its pauses are 7.5 seconds together
    looked(7 < took < 45, Seen("a form", f"{took:.1f} s", "7 to 45 s"))


@catches("server/bin/index-legacy-upload", "threading.BoundedSemaphore(at_once)", "threading.BoundedSemaphore(64)",
         also=["test_silent_connections_get_no_threads"])
@pytest.mark.slow
def test_many_large_forms_at_once_take_the_memory_of_four(looked):
    with BrokenIndex(taking) as busy, Service(busy.port) as service:
        bodies = [form(f"frob-10.{at}.tar.gz", bytes(LARGEST)) for at in range(12)]
        with ThreadPoolExecutor(12) as pool:
            replies = list(pool.map(service.ask, bodies))
        looked(all(it and it[0] == 200 for it in replies), Seen("12 forms", [it and it[:2] for it in replies], 200))
        most, _ = service.memory()
        looked(most < MOST_MEMORY, Seen("the most memory", most, f"below {MOST_MEMORY}"))


def test_silent_connections_get_no_threads(looked):
    with BrokenIndex(taking) as busy, Service(busy.port) as service, ExitStack() as peers:
        # above those that the service accepts and those that wait in the kernel, connecting takes too long
        for _ in range(60):
            peers.enter_context(socket.create_connection(("127.0.0.1", service.port), timeout=60))
        service.waits_for_threads(4)
        # more would come at once
        has_more = wait_for(lambda: service.memory()[1] > 16, seconds=2)
        looked(not has_more, Seen("60 connections", service.memory()[1], "16 threads at most"))
