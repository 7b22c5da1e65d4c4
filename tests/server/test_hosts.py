"""An index on a host of its own, behind nginx on another: while it is gone requests wait, and it comes back without a
hand. The hosts are network namespaces, linked to each other alone."""
import socket
import struct
import time

import pytest
from support.needed import want_command
from support.planted import catches
from support.server.expected import assert_ends, assert_reply
from support.server.hosts import behind_nginx
from support.server.kept import Uploader
from support.server.network import forget_host
from support.server.stand_ins import stand_ins
from support.server.under_way import Asked
from support.server.waits import wait_for
from support.server.watched import look_at_health

# how many seconds a host is gone
GONE = 6


@pytest.fixture
def behind(program, folder, certificate):
    want_command("ip", "iproute2")
    want_command("nsenter", "util-linux")
    with behind_nginx(program, folder, certificate) as made:
        yield made
        assert not made.front.errors()


@pytest.fixture
def on_host(behind):
    if behind.refused:
        pytest.skip(f"this machine refuses {behind.refused}")
    return behind


def test_nginx_reaches_an_index_on_another_host(behind):
    behind.fill()
    assert_reply(behind.index.ask("GET", "/files/frob/frob-1.0.tar.gz"), 200, None, b"frob")


@pytest.mark.slow
def test_a_host_that_loses_its_power_comes_back_and_has_lost_nothing(behind, chance, looked):
    behind.fill()
    front, index = behind.front, behind.index
    uploader = Uploader(front, "frob-nest", time.monotonic() + 90, chance, 0.02)
    uploader.start()
    assert_reply(front.ask("GET", "/simple/frob/", Accept="text/html"), 200)
    # until nginx asks for it again while all is well: it counts whole seconds
    time.sleep(2.1)
    with behind.host.unplugged():
        index.index.process.kill()
        with index.away():
            page = Asked(front.ask, "GET", "/simple/frob/", Accept="text/html, x/y")
            upload = Asked(front.upload, "frob", "frob-2.0.tar.gz", b"late")
            posted = Asked(front.claim, "fresh")
            kept = Asked(front.ask, "GET", "/simple/frob/", Accept="text/html")
            health = Asked(front.ask, "GET", "/health")
            time.sleep(GONE)
            looked(kept.reply and kept.reply[0] == 200, "a page that nginx keeps goes out", kept.reply)
    status, headers, _ = posted.ended()
    looked((status, headers["Retry-After"]) == (503, "2"), "a POST is told to come again", posted.reply)
    looked(health.ended()[0] == 503, "its health is bad", health.reply)
    looked(page.ended()[0] == 200 and b"frob-1.0.tar.gz" in page.reply[2], "a page waits for it", page.reply)
    looked(upload.ended()[0] in (200, 201), "an upload waits for it", upload.reply)
    looked(wait_for(lambda: front.claim("fresh")[0] == 200), "it takes a change without a hand")
    uploader.stop()
    missing = uploader.missing(index)
    looked(uploader.files and not missing, "no acknowledged upload is lost", missing, len(uploader.files))


@catches("server/bin/index-health", 'return Look(RESTART, f"no answer: {end!r}")', "return Look(WELL)")
@pytest.mark.slow
def test_an_index_that_waits_for_a_lost_cable_is_restarted_by_the_check_of_health(on_host, folder):
    """A request breaks off with the cable. The index waits for the rest of it until it is restarted."""
    on_host.fill()
    host, index = on_host.host, on_host.index
    peer = socket.create_connection((host.address, index.port), timeout=60)
    peer.sendall(b"GET /simple/frob/ HTTP/1.1\r\n")
    time.sleep(0.2)
    with host.unplugged():
        # ended at once, by a message that is lost with the cable
        peer.setsockopt(socket.SOL_SOCKET, socket.SO_LINGER, struct.pack("ii", 1, 0))
        peer.close()
        forget_host()
    path = stand_ins(f"{folder}/hosts-bin", systemctl=f"kill {index.index.process.pid}")
    ended = look_at_health(path, "--patience", "2", f"http://127.0.0.1:{index.port}", under=host.under)
    assert_ends(ended, 8, "no answer")
    page = on_host.front.ask("GET", "/simple/frob/", Accept="text/html, y/z")
    assert_reply(page, 200, None, b"frob-1.0.tar.gz")
