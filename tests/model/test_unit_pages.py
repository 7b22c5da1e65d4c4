"""The pages that the tests make are those of the pages of docs, letter for letter."""
import re

import pytest
from support.model.pages import HTML, JSON_1, Listed, page_of_files, page_of_names
from support.places import TOP
from support.planted import catches
from support.serving import sha256

BROKEN = Listed("frob-1.0.tar.gz", "1.0", sha256(b"abc"), 3, ">=3.8", "broken")
PLAIN = Listed("frob-1.0.tar.gz", "1.0", sha256(b"abc"), 3)


def blocks(page):
    """The blocks of a page of docs that are no commands."""
    with open(f"{TOP}/docs/reference/{page}.md", encoding="utf-8") as kept:
        return re.findall(r"^```\n(.*?)^```$", kept.read(), re.S | re.M)


@catches("tests/support/model/pages.py", 'data-yanked="{escaped(listed.yank)}"', 'data-yank="{escaped(listed.yank)}"')
@pytest.mark.parametrize("kind,end", [(HTML, ""), (JSON_1, "\n")], ids=("HTML", "JSON"))
def test_the_pages_of_the_page_of_docs(kind, end):
    names = page_of_names([("frob-nest", "Frob._-Nest")], kind)
    assert [names + end, page_of_files("frob", [BROKEN], kind) + end] == [
        it for it in blocks("PAGES") if it.startswith("{") == (kind == JSON_1)]


def test_the_page_of_the_example_over_http():
    assert page_of_files("frob", [PLAIN], JSON_1) in "".join(blocks("HTTP")).splitlines()
