"""The last changes as a feed (Atom, RFC 4287)."""
from __future__ import annotations

import urllib.parse
import uuid
from typing import Container, Iterator

from indexctl.page import text_of
from indexctl.site.log import Change, Log
from indexctl.terminal import printable
from indexctl.units import iso

DONE = {"upload": "was uploaded", "delete": "was deleted", "claim": "was claimed", "yank": "was yanked",
        "unyank": "is no longer yanked"}


def feed_of(url: str, log: Log, held: Container[str]) -> Iterator[str]:
    """The feed, the newest change first. The same log gives the same text."""
    host = text_of(urllib.parse.urlsplit(url).netloc)
    place = text_of(f"{url}/browse/")
    yield ('<?xml version="1.0" encoding="utf-8"?>\n<feed xmlns="http://www.w3.org/2005/Atom">\n'
           f"<title>Changes of {host}</title>\n<id>{place}feed.xml</id>\n"
           f'<link rel="self" type="application/atom+xml" href="{place}feed.xml"/>\n<link href="{place}"/>\n'
           f"<author><name>{host}</name></author>\n<updated>{iso(log.last[-1].at if log.last else 0)}</updated>\n")
    for it in reversed(log.last):
        yield entry_of(url, it, it.name in held)
    yield "</feed>\n"


def entry_of(url: str, it: Change, is_held: bool) -> str:
    """A change as an entry. Its id is made of what it says, and so the same in each run."""
    title = text_of(" ".join(filter(None, (it.name, it.what if it.do != "claim" else "", DONE[it.do]))))
    page = text_of(f"{url}/browse/" + (f"projects/{it.name}.html" if is_held else ""))
    reason = text_of(it.reason) if it.do == "yank" and it.reason else ""
    key = uuid.uuid5(uuid.NAMESPACE_URL, "\n".join(map(printable, (url, *it))))
    return (f"<entry>\n<title>{title}</title>\n<id>urn:uuid:{key}</id>\n<updated>{iso(it.at)}</updated>\n"
            f'<link href="{page}"/>\n<summary>{reason or title}</summary>\n</entry>\n')
