"""Pages of other indexes, as the examples of PEP 503, 592, 629, 691, 700, 740 and 792 have them."""
from __future__ import annotations

import json
import time

import pytest
from indexctl.moving import pages
from indexctl.moving.items import Item
from indexctl.moving.pages import read_page
from indexctl.moving.web import Failure, Reply
from indexctl.standings import JSON_PAGE
from support.planted import catches

URL = "https://example.com/simple/holygrail/"
DIGEST = "d" * 64
# PEP 691, "Project Detail", with the digests of a file each
PEP_691 = {
    "meta": {"api-version": "1.0"},
    "name": "holygrail",
    "files": [
        {"filename": "holygrail-1.0.tar.gz", "url": "https://example.com/files/holygrail-1.0.tar.gz",
         "hashes": {"sha256": "a" * 64, "blake2b": "..."}, "requires-python": ">=3.7", "yanked": "Had a vulnerability"},
        {"filename": "holygrail-1.0-py3-none-any.whl",
         "url": "https://example.com/files/holygrail-1.0-py3-none-any.whl",
         "hashes": {"sha256": "b" * 64, "blake2b": "..."}, "requires-python": ">=3.7", "dist-info-metadata": True},
    ],
}
# PEP 503, "Specification", with the attribute of PEP 592
PEP_503 = """<!DOCTYPE html>
<html>
  <body>
    <a href="/frob/">frob</a>
    <a href="/spamspamspam/">spamspamspam</a>
  </body>
</html>
"""


def reply(text, kind="text/html", url=URL, is_whole=True):
    return Reply(kind, text.encode(), url, is_whole)


def json_of(page, key="files"):
    return read_page(reply(json.dumps(page), JSON_PAGE), key)


def html_of(text, key="files"):
    return read_page(reply(text), key).items


def test_the_example_of_pep_691():
    assert json_of(PEP_691).items == [
        Item("holygrail-1.0.tar.gz", "https://example.com/files/holygrail-1.0.tar.gz", "a" * 64, "Had a vulnerability",
             ">=3.7"),
        Item("holygrail-1.0-py3-none-any.whl", "https://example.com/files/holygrail-1.0-py3-none-any.whl", "b" * 64,
             None, ">=3.7")]


def test_the_list_of_pep_691():
    page = {"meta": {"api-version": "1.0"}, "projects": [{"name": "Frob"}, {"name": "spamspamspam"}]}
    assert [it.file for it in json_of(page, "projects").items] == ["Frob", "spamspamspam"]


def test_the_example_of_pep_503():
    assert html_of(PEP_503, "projects") == [Item("frob", "https://example.com/frob/"),
                                            Item("spamspamspam", "https://example.com/spamspamspam/")]


@pytest.mark.parametrize("key, link", [
    (f"#sha256={DIGEST}", Item("a-1.tar.gz", "https://example.com/simple/holygrail/a-1.tar.gz", DIGEST)),
    (f"#egg=a-1&sha256={DIGEST}", Item("a-1.tar.gz", "https://example.com/simple/holygrail/a-1.tar.gz", DIGEST)),
    ("#md5=5d41402abc4b2a76b9719d911017c592", Item("a-1.tar.gz", "https://example.com/simple/holygrail/a-1.tar.gz"))])
def test_a_digest_stands_behind_the_address(key, link):
    assert html_of(f'<a href="a-1.tar.gz{key}">a-1.tar.gz</a>') == [link]


@pytest.mark.parametrize("more, yanked", [("", None), ("data-yanked", ""), ('data-yanked=""', ""),
                                          ('data-yanked="bad &lt;1&gt;"', "bad <1>"), ("DATA-YANKED='x'", "x")])
def test_a_yank_of_pep_592(more, yanked):
    assert [it.yanked for it in html_of(f'<a href="a-1.tar.gz" {more}>a</a>')] == [yanked]


@pytest.mark.parametrize("more, requires", [
    ('data-requires-python="&gt;=3"', ">=3"), ('data-requires-python=">=3"', ">=3"), ("", None),
    ('data-requires-python=""', None), ('data-requires-python="three"', None)])
def test_a_requires_python_is_taken_if_the_index_takes_it(more, requires):
    assert [it.requires for it in html_of(f'<a {more} href="a-1.tar.gz">a</a>')] == [requires]


@pytest.mark.parametrize("target, url, name", [
    ("../../f/a-1.tar.gz", "https://example.com/f/a-1.tar.gz", "a-1.tar.gz"),
    ("//cdn.example/a-1.tar.gz", "https://cdn.example/a-1.tar.gz", "a-1.tar.gz"),
    ("a-1%2B2.tar.gz?x=/y", "https://example.com/simple/holygrail/a-1%2B2.tar.gz?x=/y", "a-1+2.tar.gz"),
    ("..%2f..%2fetc-1.tar.gz", "https://example.com/simple/holygrail/..%2f..%2fetc-1.tar.gz", "../../etc-1.tar.gz"),
    ("http://[/a-1.tar.gz", "http://[/a-1.tar.gz", "a-1.tar.gz")])
def test_a_link_is_relative_to_its_page(target, url, name):
    assert html_of(f"<a href='{target}'>x</a>") == [Item(name, url)]


def test_a_base_is_that_of_the_page():
    assert html_of('<base href="https://other.example/x/"><a href=a-1.tar.gz>a</a>') == [
        Item("a-1.tar.gz", "https://other.example/x/a-1.tar.gz")]


def test_links_in_comments_and_anchors_without_an_address_are_none():
    assert html_of('<!-- <a href="a">a</a> --><a name="x">x</a><abbr href="b">b</abbr><!-- <a href="c">') == []


@pytest.mark.parametrize("more, yanked", [({}, None), ({"yanked": False}, None), ({"yanked": True}, ""),
                                          ({"yanked": "x"}, "x"), ({"yanked": 3}, None)])
def test_a_yank_in_json(more, yanked):
    assert json_of({"files": [{"filename": "a", "url": "a", **more}]}).items[0].yanked == yanked


@pytest.mark.parametrize("row", [{}, {"filename": "a"}, {"filename": 3, "url": "a"}, {"filename": "a", "url": 3}, "a",
                                 3])
def test_a_row_without_a_name_or_an_address_is_passed_over(row):
    assert json_of({"files": [row, {"filename": "b", "url": "b", "hashes": 3, "size": "x"}]}).items == [
        Item("b", f"{URL}b")]


@pytest.mark.parametrize("status", ["active", "archived", "quarantined", "deprecated"])
def test_a_status_of_pep_792(status):
    assert json_of({"files": [], "project-status": {"status": status}}).status == status
    assert read_page(reply(f'<meta name="pypi:project-status" content="{status}">'), "files").status == status


@pytest.mark.parametrize("version, is_read", [("1.0", True), ("1.99", True), ("2.0", False), ("0.9", False)])
def test_a_page_of_another_major_version_is_not_read(version, is_read):
    for text, kind in ((json.dumps({"meta": {"api-version": version}, "files": []}), JSON_PAGE),
                       (f'<meta name="pypi:repository-version" content="{version}">', "text/html")):
        if is_read:
            assert read_page(reply(text, kind), "files").items == []
        else:
            with pytest.raises(Failure, match=f"the page has version {version}"):
                read_page(reply(text, kind), "files")


@pytest.mark.parametrize("kind", ["text/plain", "application/octet-stream", "image/png"])
def test_another_type_is_not_read(kind):
    with pytest.raises(Failure, match=f"this is {kind}") as end:
        read_page(reply("x", kind), "files")
    assert not end.value.passes


@pytest.mark.parametrize("text, kind, is_whole, is_cut", [
    ('{"files": [', JSON_PAGE, True, True), ("<html><body></body></html>\n", "text/html", False, False),
    ("<html><body><a href=a>", "text/html", False, True), ("<html><body><a href=a>", "text/html", True, False)])
def test_a_page_that_was_cut_off_is_asked_for_again(text, kind, is_whole, is_cut):
    if is_cut:
        with pytest.raises(Failure) as end:
            read_page(reply(text, kind, is_whole=is_whole), "files")
        assert end.value.passes
    else:
        read_page(reply(text, kind, is_whole=is_whole), "files")


@catches("indexctl/moving/pages.py", "if len(page.items) > MOST_LINKS:", "if False:")
def test_a_page_has_a_bounded_number_of_links(monkeypatch):
    assert (pages.MOST_LINKS, pages.MOST_PAGE) == (100_000, 32 << 20)
    monkeypatch.setattr(pages, "MOST_LINKS", 2)
    rows = [{"filename": "a", "url": "a"}] * 3
    for read in (lambda many: json_of({"files": rows[:many]}).items, lambda many: html_of("<a href=a>" * many)):
        assert len(read(2)) == 2
        with pytest.raises(Failure, match="more than 2 links"):
            read(3)


@catches("indexctl/moving/pages.py", r'''NAME, VALUE = r"""[^\s=<>"'/]+""",''', 'NAME, VALUE = r"""[^=>]+""",')
@pytest.mark.timeout(60)
@pytest.mark.parametrize("text", ["<a " * 400_000, "<a x" + " y" * 600_000, '<a x="' * 300_000, "<!--" * 300_000,
                                  "<a" + " " * 1_200_000, "<a href='\"" * 200_000, '<a b="<a b=\' ' * 120_000])
def test_no_page_takes_long_to_read(text):
    """Each has more than a megabyte. What tries again at each place would take hours."""
    begun = time.process_time()
    html_of(text)
    assert time.process_time() - begun < 20
