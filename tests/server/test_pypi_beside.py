"""PyPI beside the index: a project of ours never comes from elsewhere, and one that nobody holds does."""
import pytest
from support.server.compressed import differences, unpacked
from support.server.expected import assert_reply
from support.server.front import Front
from support.server.stranger import Stranger
from support.serving import JSON_PAGE, accepted


# what a client sends with each request to a host, and PyPI is another one
SECRETS = {"X_Index_Token": "9f2d7c0b5e8a4163", "Authorization": "Basic cmVhZGVyOjRhNmI=", "Cookie": "session=7e21"}


@pytest.fixture
def pypi():
    with Stranger() as stranger:
        yield stranger


@pytest.fixture
def beside(kept_index, certificate, folder, pypi):
    """nginx in front of the index, which holds frob, and of what stands for PyPI."""
    with Front(f"{folder}/pypi", certificate, kept_index.port, pypi=pypi.port) as front:
        accepted(kept_index.claim("frob"))
        accepted(kept_index.upload("frob", "frob-1.0.tar.gz", b"ours"))
        yield front


def test_a_name_that_nobody_holds_is_pypis(beside):
    assert_reply(beside.ask("GET", "/simple/other/"), 200, "text/html", b"a stranger's")


def test_no_secret_of_a_client_goes_to_pypi(beside, pypi):
    assert beside.ask("GET", "/simple/other/", **SECRETS)[0] == 200
    sent = [value for asked in pypi.asked for value in asked.values()]
    assert sent and not {*sent} & {*SECRETS.values()}, sent


def test_a_name_that_we_hold_is_ours_alone(beside):
    page = beside.ask("GET", "/simple/frob/")
    assert_reply(page, 200, None, b"frob-1.0")
    assert b"99.0" not in page[2]


@pytest.mark.parametrize("said", ["gzip", "identity"])
def test_a_page_of_ours_comes_in_the_form_that_was_asked_for(said, beside, kept_index):
    asked = {"Accept": JSON_PAGE, "Accept_Encoding": said}
    of_index = kept_index.ask("GET", "/simple/frob/", **asked)
    assert [*differences(beside.ask("GET", "/simple/frob/", **asked), of_index, said)] == []


@pytest.mark.parametrize("said", ["gzip", "identity"])
def test_a_page_of_pypi_comes_whole(said, beside):
    for _ in range(2):
        page = beside.ask("GET", "/simple/other/", Accept=JSON_PAGE, Accept_Encoding=said)
        assert (page[0], b"a stranger's" in unpacked(page)) == (200, True), page


def test_no_other_path_leads_to_pypi(beside):
    assert_reply(beside.ask("GET", "/simple/x/../frob/"), 404, "application/json", b"NoRoute")


def test_another_spelling_of_ours_is_moved(beside):
    assert_reply(beside.ask("GET", "/simple/FROB/"), 301)


def test_a_file_is_never_pypis(beside):
    assert_reply(beside.ask("GET", "/files/frob/frob-99.0.tar.gz"), 404, None, b"NoFile")


def test_a_name_of_ours_is_not_pypis_while_the_index_is_away(beside, kept_index):
    with kept_index.away():
        reply = beside.ask("GET", "/simple/frob/", Accept="x/y, */*")
    assert_reply(reply, 503, "application/json", b"Unavailable")
