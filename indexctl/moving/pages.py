"""Pages of other indexes (PEP 503, PEP 691): their links, of HTML or of JSON, as whoever wrote them means them."""
from __future__ import annotations

import html
import re
import urllib.parse
from dataclasses import dataclass, field
from typing import Any, Dict, Iterator, List, Optional, Tuple

from indexctl.moving.items import Item, digest_in, requires_of
from indexctl.moving.web import Failure, Reply
from indexctl.standings import is_number
from indexctl.transport import JSON_PAGE, object_of

ACCEPT = f"{JSON_PAGE}, application/vnd.pypi.simple.v1+html;q=0.2, text/html;q=0.1"
# of a page: nobody has so much, but for the list of all projects of pypi.org
MOST_PAGE, MOST_LINKS = 32 << 20, 100_000
NAME, VALUE = r"""[^\s=<>"'/]+""", r"""(?:"[^"]*"|'[^']*'|[^\s"'<>]+)"""
# a page is as long as its writer likes, so nothing here is tried at two lengths
TAG = re.compile(rf"<!--.*?(?:-->|\Z)|<(a|base|meta)((?:\s+{NAME}(?:\s*=\s*{VALUE})?){{0,40}})\s*/?>([^<]*)",
                 re.S | re.I)
ATTRIBUTE = re.compile(rf"({NAME})(?:\s*=\s*({VALUE}))?")


@dataclass
class Page:
    """What a page lists: files, each at its whole address, or projects, of which each stands as a file would."""
    items: List[Item] = field(default_factory=list)
    # what PEP 792 says of a project, such as `quarantined`
    status: str = ""


def read_page(reply: Reply, key: str) -> Page:
    """The page that a reply is: `files` of a project, or `projects`."""
    if reply.kind in (JSON_PAGE, "application/json"):
        return read_json(reply, key)
    if reply.kind in ("text/html", "application/vnd.pypi.simple.v1+html", "application/xhtml+xml"):
        return read_html(reply, key)
    raise Failure(f"this is {reply.kind or 'of no type'}, and not a page of an index")


def check_version(text: str) -> None:
    """PEP 629: the minor number says what is new, the major one what can't be read."""
    if text.partition(".")[0] not in ("", "1"):
        raise Failure(f"the page has version {text[:20]}, and 1 is known alone")


def read_json(reply: Reply, key: str) -> Page:
    found = object_of(reply.body)
    if found is None:
        raise Failure("this is not JSON: perhaps it was cut off", passes=True)
    meta, rows, status = found.get("meta"), found.get(key), found.get("project-status")
    check_version(str(meta.get("api-version", "")) if isinstance(meta, dict) else "")
    if not isinstance(rows, list):
        raise Failure(f"the page has no {key}")
    page = Page(status=str(status.get("status", "")) if isinstance(status, dict) else "")
    for row in rows[:MOST_LINKS + 1]:
        item = item_of(row, reply.url, key) if isinstance(row, dict) else None
        page.items += [item] if item else []
    return bounded(page)


def bounded(page: Page) -> Page:
    if len(page.items) > MOST_LINKS:
        raise Failure(f"the page has more than {MOST_LINKS} links")
    return page


def item_of(row: Dict[str, Any], url: str, key: str) -> Optional[Item]:
    """The link of a row of JSON, or None if it has no name."""
    name, target = (row.get("filename"), row.get("url")) if key == "files" else (row.get("name"), "")
    if not isinstance(name, str) or not isinstance(target, str):
        return None
    yanked, hashes, size = row.get("yanked"), row.get("hashes"), row.get("size")
    return Item(name, joined(url, target) if target else "",
                digest_in(hashes.get("sha256")) if isinstance(hashes, dict) else "",
                yanked if isinstance(yanked, str) else "" if yanked is True else None,
                requires_of(row.get("requires-python")), int(size) if size and is_number(size) else 0)


def joined(base: str, target: str) -> str:
    """An address that is relative to another. What is malformed is kept as it is: it is no address of http."""
    try:
        return urllib.parse.urljoin(base, target)
    except ValueError:
        return target


def tags(text: str) -> Iterator[Tuple[str, Dict[str, str], str]]:
    """The tags of a page that say something, each with its attributes and the text behind it."""
    for found in TAG.finditer(text):
        if found[1]:
            pairs: Dict[str, str] = {}
            for name, value in ATTRIBUTE.findall(found[2]):
                pairs.setdefault(name.lower(), html.unescape(value[1:-1] if value[:1] in ("'", '"') else value))
            yield found[1].lower(), pairs, html.unescape(found[3]).strip()


def read_html(reply: Reply, key: str) -> Page:
    text = reply.body.decode("utf-8", "replace")
    if not reply.is_whole and not re.search(r"</(?:html|body)\s*>\s*\Z", text[-200:], re.I):
        raise Failure("the page has no end: perhaps it was cut off", passes=True)
    page, base = Page(), reply.url
    for tag, pairs, words in tags(text):
        if tag == "base":
            base = joined(base, pairs.get("href", ""))
        elif tag == "meta" and pairs.get("name") == "pypi:repository-version":
            check_version(pairs.get("content", ""))
        elif tag == "meta" and pairs.get("name") == "pypi:project-status":
            page.status = pairs.get("content", "")
        elif tag == "a" and "href" in pairs:
            page.items.append(anchor(pairs, words, base, key))
            bounded(page)
    return page


def anchor(pairs: Dict[str, str], words: str, base: str, key: str) -> Item:
    """The link of an anchor. A file is named by its address, as pip reads it; the digest stands behind `#`."""
    url, _, fragment = joined(base, pairs["href"].strip()).partition("#")
    last = urllib.parse.unquote(url.partition("?")[0].rstrip("/").rpartition("/")[2])
    if key != "files":
        return Item(words or last, url)
    digests = [it.partition("=")[2] for it in fragment.split("&") if it.startswith("sha256=")]
    return Item(last, url, digest_in(digests[0]) if digests else "", pairs.get("data-yanked"),
                requires_of(pairs.get("data-requires-python")))
