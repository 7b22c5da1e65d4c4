"""Pages and files through nginx: what it keeps, and what goes out for what was asked."""
import gzip
import itertools
import os
import re
import time

import pytest
from support.places import NGINX
from support.planted import catches
from support.running import run_command
from support.server.expected import assert_ends, assert_reply
from support.server.farm import PIP
from support.server.front import Front, has_ipv6
from support.server.slow import SlowIndex, of_herd
from support.serving import JSON_PAGE, accepted

MOST = 16 << 20
# nginx keeps a page for a second, and counts whole seconds
KEPT_SECONDS = 2.1
# without it a client may read a page of HTML as Latin-1
UTF_8 = "; charset=utf-8"


class TestPages:
    """A page is kept by its raw path and by what was asked for: others who asked first change nothing."""

    def test_a_type_that_nobody_has_leaves_the_other_types(self, filled_index, front):
        assert_reply(front.ask("GET", "/simple/frob/", Accept="image/png"), 406)
        assert_reply(front.ask("GET", "/simple/frob/", Accept=PIP), 200, JSON_PAGE, b"frob-1.0")
        assert_reply(front.ask("GET", "/simple/frob/", Accept="text/html"), 200, f"text/html{UTF_8}", b"<a href")

    def test_a_path_that_is_no_route_leaves_the_root_page(self, filled_index, front):
        assert_reply(front.ask("GET", "/simple//"), 404, "application/json", b"NoRoute")
        assert_reply(front.ask("GET", "/simple/"), 200, f"text/html{UTF_8}", b"/simple/frob/")

    def test_another_spelling_is_moved(self, filled_index, front):
        reply = front.ask("GET", "/simple/FROB")
        assert_reply(reply, 301)
        assert reply[1]["Location"].endswith("/simple/frob/")

    def test_an_upload_shows_to_the_first_reader_after_a_page_was_kept(self, filled_index, front):
        assert_reply(front.ask("GET", "/simple/frob/", Accept=PIP), 200)
        accepted(front.upload("frob", "frob-3.0.tar.gz", b"new"))
        time.sleep(KEPT_SECONDS)
        assert_reply(front.ask("GET", "/simple/frob/", Accept=PIP), 200, JSON_PAGE, b"frob-3.0")


class TestFiles:
    """Files up to the limit come in, and a client may keep those that were found."""

    def test_a_body_of_16_mib_comes_in_and_may_be_kept(self, filled_index, front):
        assert_reply(front.upload("frob", "frob-2.9.tar.gz", bytes(MOST)), 201)
        status, headers, _ = front.ask("GET", "/files/frob/frob-2.9.tar.gz")
        assert (status, "immutable" in headers["Cache-Control"]) == (200, True), headers.items()

    def test_a_byte_more_is_refused_as_the_index_refuses(self, filled_index, front):
        reply = front.upload("frob", "frob-4.0.tar.gz", bytes(MOST + 1))
        assert_reply(reply, 413, "application/json", b"BodyTooLarge")

    def test_what_is_missing_may_not_be_kept(self, filled_index, front):
        status, headers, _ = front.ask("GET", "/files/frob/frob-9.0.tar.gz")
        assert (status, headers["Cache-Control"]) == (404, "no-store")


class TestRanges:
    """A download goes on where it broke off."""
    BODY = os.urandom(50_000)
    PATH = "/files/ranges/ranges-1.0.tar.gz"

    @pytest.fixture(autouse=True)
    def file(self, front):
        accepted(front.claim("ranges"))
        accepted(front.upload("ranges", "ranges-1.0.tar.gz", self.BODY))

    def test_a_part_of_a_file_comes_before_and_after_nginx_keeps_it(self, front, looked):
        for _ in range(2):
            status, headers, body = front.ask("GET", self.PATH, Range="bytes=100-199")
            looked((status, body) == (206, self.BODY[100:200]), status, headers.items(), len(body))

    def test_curl_goes_on(self, front, folder):
        broken = f"{folder}/broken-off"
        with open(broken, "wb") as kept:
            kept.write(self.BODY[:20_000])
        words = ["curl", "-fsS", "--cacert", front.certificate, "-C", "-", "-o", broken, front.url + self.PATH]
        assert_ends(run_command(words), 0)
        with open(broken, "rb") as kept:
            assert kept.read() == self.BODY


class TestCompressed:
    """Pages of JSON go out compressed to those who ask so."""

    @pytest.fixture
    def replies(self, filled_index, front):
        plain = front.ask("GET", "/simple/frob/", Accept=JSON_PAGE)
        return plain, front.ask("GET", "/simple/frob/", Accept=JSON_PAGE, Accept_Encoding="gzip")

    def test_a_compressed_page_is_the_same_page(self, replies):
        plain, packed = replies
        assert (plain[1]["Content-Encoding"], packed[1]["Content-Encoding"]) == (None, "gzip")
        assert gzip.decompress(packed[2]) == plain[2]

    def test_caches_keep_it_by_what_was_asked(self, replies):
        varies = ", ".join(replies[1][1].get_all("Vary", [])).split(", ")
        assert {"Accept", "Accept-Encoding"} <= set(varies), varies


@catches("tests/support/server/front.py", 'f"listen [::1]:{self.port} ssl;" if has_ipv6() and not is_plain else ""',
         '""')
def test_ipv6_is_served(front):
    if not has_ipv6():
        pytest.skip("this machine has no IPv6")
    assert_reply(front.ask("GET", "/health", host="::1"), 200, None, b'"state"')


@pytest.mark.parametrize("path, status", [("/legacy/", 404), ("/pypi", 404), ("/", 405)])
def test_an_upload_by_post_is_told_what_to_use(front, path, status):
    assert_reply(front.ask("POST", path, b"x" * 3000), status, "application/json", b"indexctl upload")


@pytest.mark.parametrize("method", ["GET", "HEAD"])
def test_the_top_leads_to_the_pages(front, method):
    status, headers, _ = front.ask(method, "/")
    assert (status, headers["Location"][-8:]) == (302, "/simple/"), headers.items()


def test_the_json_of_pypi_is_no_route(front):
    assert_reply(front.ask("GET", "/pypi/frob/json"), 404, "application/json", b"NoRoute")


def test_each_cache_leaves_room_on_the_disk():
    with open(f"{NGINX}/packages.conf") as conf:
        caches = re.findall(r"^proxy_cache_path .*;$", conf.read(), re.M)
    assert len(caches) == 2
    assert [it for it in caches if " min_free=2g " not in it] == []


class TestHerd:
    """Of many who ask at once for a page that nginx has not, one reaches the index, and the others wait a moment."""

    @pytest.fixture
    def rounds(self, certificate, folder):
        """For each of five rounds the longest wait and how often the index was asked: a busy machine may make any
        round slow."""
        with SlowIndex() as slow, Front(f"{folder}/herd", certificate, slow.port) as front:
            together = filter(None, (of_herd(front, slow, f"/simple/herd{at}/") for at in itertools.count()))
            return [*itertools.islice(together, 5)]

    def test_the_index_is_asked_once_and_nobody_waits_for_long(self, rounds):
        assert min(asked for _, asked in rounds) == 1, rounds
        assert min(longest for longest, _ in rounds) < 0.4, rounds


@catches("tests/support/server/front.py", "worker_processes 2;", "worker_processes 2; worker_rlimit_nofile 2000000000;")
def test_nginx_has_no_complaint(filled_index, front):
    assert_reply(front.ask("GET", "/simple/frob/"), 200)
    assert front.errors() == []
