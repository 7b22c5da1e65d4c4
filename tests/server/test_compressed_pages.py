"""A page comes through nginx as the index has it, compressed for a client that takes gzip, and is compressed once."""
import http.client
import time

import pytest
from support.server.compressed import PACKED, PATHS, PLAIN, CountingFront, FailingIndex, differences, drawn, unpacked
from support.server.expected import assert_reply
from support.server.farm import PIP
from support.server.front import Front
from support.server.under_way import Asked
from support.server.waits import wait_for
from support.serving import JSON_PAGE, accepted

ROUNDS = 3
# nginx keeps a page for a second, and counts whole seconds
KEPT_SECONDS = 2.1
DRAWN = 50


def changes(index, chance, at):
    """Changes at random of a project: a file more, one less, and a release that is yanked."""
    project = chance.choice(["frob", "ham"])
    index.claim(project)
    for part in range(chance.randrange(1, 20)):
        name = f"{project}-{at}.{part}.tar.gz"
        accepted(index.upload(project, name, chance.randbytes(99), chance.choice(["", ">=3.8"])))
    if chance.random() < 0.5:
        accepted(index.request(do="yank", name=project, release=f"{at}.0", reason="<bad>"))
    if chance.random() < 0.5:
        accepted(index.request(do="delete", file=name))


def assert_replies_of(index, front, asked, looked):
    """Each is asked twice, since the second reply is one that nginx kept."""
    for method, path, headers in asked:
        of_index = index.ask(method, path, **headers)
        for trial in range(2):
            found = [*differences(front.ask(method, path, **headers), of_index, headers["Accept_Encoding"])]
            looked(not found, trial, method, path, headers, found)


@pytest.mark.slow
def test_replies_at_random_are_those_of_the_index_over_changes(round_number, kept_index, front, chance, looked):
    for at in range(3):
        changes(kept_index, chance, f"{round_number}.{at}")
        if at == 2:
            kept_index.starts_again()
        time.sleep(KEPT_SECONDS)
        assert_replies_of(kept_index, front, [drawn(chance) for _ in range(DRAWN)], looked)


def test_each_spelling_of_accept_encoding_gets_its_form(filled_index, front, looked):
    """Also after others have asked for the other form, and if a proxy was first, which nginx sees by Via."""
    for at, said in enumerate(PACKED + PLAIN):
        headers = [{"Accept": f"{PIP}, x/{at}", "Accept_Encoding": it} for it in (said, "identity", "gzip", said)]
        headers[0]["Via"] = "1.1 elsewhere"
        assert_replies_of(filled_index, front, [("GET", "/simple/frob/", it) for it in headers], looked)


def test_a_page_is_compressed_once_for_all_who_ask(filled_index, certificate, folder):
    with CountingFront(f"{folder}/counting", certificate, filled_index.port) as front:
        for said in PACKED * 5 + PLAIN * 5:
            assert_reply(front.ask("GET", "/simple/frob/", Accept=PIP, Accept_Encoding=said), 200, JSON_PAGE)
            assert_reply(front.ask("HEAD", "/simple/frob/", Accept=PIP, Accept_Encoding=said), 200, JSON_PAGE)
        count = 10 * len(PACKED + PLAIN)
        assert wait_for(lambda: len(front.ratios("sent")) >= count), front.ratios("sent")
        assert set(front.ratios("sent")) == {"-"}
        fetched = front.ratios("compressed")
    assert (len(fetched), fetched.count("-")) == (2, 1), fetched


class TestAway:
    """What nginx does with both forms of a page while the index is away."""
    BOTH = ["gzip", "identity"]

    def test_what_is_kept_goes_out_at_once(self, filled_index, front, looked):
        asked = [(path, said) for path in PATHS for said in self.BOTH]
        before = {it: front.ask("GET", it[0], Accept=PIP, Accept_Encoding=it[1]) for it in asked}
        with filled_index.away():
            time.sleep(KEPT_SECONDS)
            for (path, said), kept in before.items():
                status, headers, body = front.ask("GET", path, Accept=PIP, Accept_Encoding=said)
                # a reply that waited has this header
                looked((status, body, headers["WWW-Authenticate"]) == (kept[0], kept[2], None), path, said, status)

    @pytest.mark.parametrize("said", BOTH)
    def test_another_page_waits_for_the_index(self, said, filled_index, front):
        with filled_index.away():
            page = Asked(front.ask, "GET", "/simple/frob/", Accept=PIP, Accept_Encoding=said)
            assert wait_for(lambda: front.has_met_nobody("GET /simple/frob/"))
        assert_reply(page.ended(), 200, JSON_PAGE)
        assert unpacked(page.reply) == filled_index.ask("GET", "/simple/frob/", Accept=PIP)[2]

    @pytest.mark.slow
    def test_after_the_waits_a_client_is_told_to_come_again(self, filled_index, front, looked):
        with filled_index.away():
            pages = [Asked(front.ask, method, "/simple/frob/", Accept=PIP, Accept_Encoding=said)
                     for method in ("GET", "HEAD") for said in self.BOTH]
            for page in pages:
                status, headers, body = page.ended()
                looked((status, headers["Retry-After"]) == (503, "2"), page.reply)
                looked(page.seconds > 7, page.seconds)


class TestFaults:
    """A page that failed is never one that goes out as whole, and a kept one goes out in its place."""
    PATH = "/simple/frob/"

    @pytest.fixture
    def failing(self):
        with FailingIndex() as failing:
            yield failing

    @pytest.fixture
    def behind(self, failing, certificate, folder):
        with Front(f"{folder}/failing", certificate, failing.port) as front:
            yield front

    @pytest.mark.parametrize("said", ["gzip", "identity"])
    def test_a_fault_comes_as_the_index_says_it(self, said, failing, behind):
        failing.fault = "status"
        reply = behind.ask("GET", self.PATH, Accept=PIP, Accept_Encoding=said)
        assert (reply[0], reply[2]) == (500, failing.FAULT)

    @pytest.mark.parametrize("said", ["gzip", "identity"])
    def test_a_kept_page_goes_out_in_place_of_a_fault(self, said, failing, behind):
        assert_reply(behind.ask("GET", self.PATH, Accept=PIP, Accept_Encoding=said), 200)
        failing.fault = "status"
        time.sleep(KEPT_SECONDS)
        reply = behind.ask("GET", self.PATH, Accept=PIP, Accept_Encoding=said)
        assert_reply(reply, 200, JSON_PAGE)
        assert unpacked(reply) == failing.PAGE

    def test_a_large_body_reaches_the_index_whole(self, behind):
        reply = behind.ask("POST", self.PATH, bytes(3 << 20))
        assert (reply[0], reply[2]) == (400, b"%d" % (3 << 20)), reply

    @pytest.mark.parametrize("said", ["gzip", "identity"])
    def test_a_page_that_broke_off_is_neither_whole_nor_kept(self, said, failing, behind):
        failing.fault = "cut"
        with pytest.raises(http.client.IncompleteRead):
            behind.ask("GET", self.PATH, Accept=PIP, Accept_Encoding=said)
        failing.fault = ""
        reply = behind.ask("GET", self.PATH, Accept=PIP, Accept_Encoding=said)
        assert_reply(reply, 200, JSON_PAGE)
        assert unpacked(reply) == failing.PAGE
