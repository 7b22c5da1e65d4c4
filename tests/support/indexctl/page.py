"""The page of the office as it is read: by a parser, and by a browser without a window."""
from __future__ import annotations

import html.parser
import os
import shutil
import subprocess
import tempfile
from typing import List, Optional, Set, Tuple

from support.needed import want_command

BROWSERS = "chromium", "chromium-browser", "google-chrome"
# a click on a head, a search and the width, whose ends stand in the title
DRIVER = """<script>
var find = document.getElementById("find"), heads = document.querySelectorAll("section:nth-of-type(4) th button");
function there(kind) {
  return Array.from(document.querySelectorAll(kind)).filter(function (it) { return it.checkVisibility(); });
}
function shown() { return there("[data-find]"); }
// no window of a browser without a head is as narrow as a telephone, so the body is
document.body.style.width = "360px";
var all = shown().length, wide = document.body.scrollWidth > 360;
heads[0].click(); heads[0].click();
var last = document.querySelector("section:nth-of-type(4) tbody tr th").textContent;
heads[1].click();
var least = document.querySelector("section:nth-of-type(4) tbody tr td:nth-child(2)").dataset.key;
find.value = "GLASSHOUSE"; find.dispatchEvent(new Event("input"));
var found = shown().map(function (it) { return it.tagName; }).join();
find.value = "no such text"; find.dispatchEvent(new Event("input"));
var none = shown().length, lines = there(".none").length;
document.title = [all, wide, last, least, found, none, lines].join("|");
</script>"""


class Reader(html.parser.HTMLParser):
    """The rows of a page, its texts, and what it would ask for from elsewhere."""

    def __init__(self, text: str) -> None:
        super().__init__()
        self.rows, self.articles, self.items = 0, 0, 0
        self.texts: List[str] = []
        self.asks: List[Optional[str]] = []
        self.tags: Set[str] = set()
        self.skips: Optional[str] = None
        self.feed(text)

    def handle_starttag(self, tag: str, attrs: List[Tuple[str, Optional[str]]]) -> None:
        given = dict(attrs)
        self.tags.add(tag)
        self.skips = tag if tag in ("script", "style") else self.skips
        if "data-find" in given:
            self.rows += tag == "tr"
            self.articles += tag == "article"
            self.items += tag == "li"
        self.asks += [given[it] for it in ("src", "href", "srcset", "action")
                      if not (given.get(it, "data:") or "").startswith(("data:", "#"))]

    def handle_endtag(self, tag: str) -> None:
        self.skips = None if tag == self.skips else self.skips

    def handle_data(self, data: str) -> None:
        if not self.skips:
            self.texts.append(data)


def browser() -> str:
    """A browser, which CI has."""
    found = next(filter(None, map(shutil.which, BROWSERS)), None)
    if found:
        return found
    want_command("chromium", "chromium")
    return "chromium"


def rendered(path: str, *more: str) -> Tuple[str, List[str]]:
    """What a browser makes of a page, and what it prints on its console."""
    with tempfile.TemporaryDirectory() as home:
        words = [browser(), "--headless=new", "--no-sandbox", "--disable-gpu", "--enable-logging=stderr",
                 f"--user-data-dir={home}/browser", *more, "--dump-dom", f"file://{path}"]
        ended = subprocess.run(words, stdin=subprocess.DEVNULL, stdout=subprocess.PIPE, stderr=subprocess.PIPE,
                               timeout=90, text=True, errors="replace", env={**os.environ, "HOME": home})
    return ended.stdout, [it for it in ended.stderr.splitlines() if "CONSOLE" in it]


def title_of(page: str) -> str:
    return page.partition("<title>")[2].partition("</title>")[0]
