"""Another index as a source: its list of projects, their pages, and the bytes of their files."""
from __future__ import annotations

import hashlib
import threading
import urllib.parse
from typing import Dict, List, Optional, Protocol, Tuple

from indexctl.ends import REFUSED, UNREACHED, WRONG, Stop
from indexctl.moving.items import Found, Item, Left, Wanted, add_items, is_archive
from indexctl.moving.pages import ACCEPT, MOST_PAGE, Page, read_page
from indexctl.moving.pool import at_once_shown
from indexctl.moving.web import Failure, Reply, Web, parts_of
from indexctl.names import is_text
from indexctl.settings import netrc_of, without_password
from indexctl.uploads import MOST_BYTES
from package_index.names import is_name, normal, read_file_name

# of all pages together
MOST_FILES = 500_000


class Source(Protocol):
    """Where projects come from. `is_here` says that it costs nothing to read a file."""
    is_here: bool

    def find(self, wanted: Wanted) -> Found:
        """What there is of these names, or of all names."""

    def bytes_of(self, item: Item) -> bytes:
        """The bytes of a file. Raises Failure if they can't be had, or are others than the source says."""


def login_of(parts: urllib.parse.SplitResult) -> str:
    """The user and the password for the host of a source, by its address or ~/.netrc, or an empty text."""
    if parts.username is not None:
        return f"{urllib.parse.unquote(parts.username)}:{urllib.parse.unquote(parts.password or '')}"
    login, _, password = netrc_of(parts.hostname or "")
    # that one is the token of an index
    return f"{login}:{password}" if login and login != "__token__" else ""


class OtherIndex:
    """The index at an address of /simple/."""
    is_here = False

    def __init__(self, url: str, ca: str, again: int, is_digest_needed: bool, stopped: threading.Event) -> None:
        try:
            self.parts = parts_of(url)
        except Failure as end:
            raise Stop(WRONG, f"{end}.") from end
        # the password goes no further than here
        self.host, bare = self.parts.hostname or "", self.parts.netloc.rpartition("@")[2]
        self.url = urllib.parse.urlunsplit((self.parts.scheme, bare, self.parts.path.rstrip("/"), "", ""))
        self.is_digest_needed, self.stopped, self.count = is_digest_needed, stopped, 0
        self.web = Web(ca, again, self.host, login_of(self.parts), stopped)

    def page(self, url: str, key: str) -> Page:
        def read(reply: Reply) -> Page:
            host = urllib.parse.urlsplit(reply.url).hostname
            if host != self.host:
                raise Failure(f"it redirects to {host}, which is another index. Name that one if you mean it")
            return read_page(reply, key)
        return self.web.get(url, ACCEPT, MOST_PAGE, read)

    def listed(self) -> Dict[str, str]:
        """The projects of the list, each with its address."""
        try:
            items = self.page(f"{self.url}/", "projects").items
        except Failure as end:
            raise Stop(UNREACHED if end.passes else REFUSED if end.status == 401 else WRONG,
                       f"{self.url}/: {end}. Is this the address of its /simple/? You may also name the projects "
                       "that you want.") from end
        found: Dict[str, str] = {}
        for item in items:
            if is_name(item.file):
                found.setdefault(normal(item.file), self.own_url(item.place) or self.url_of(item.file))
        if not found:
            raise Stop(WRONG, f"{self.url}/ lists no project. Is this the address of its /simple/?")
        return found

    def url_of(self, name: str) -> str:
        return f"{self.url}/{normal(name)}/"

    def own_url(self, url: str) -> str:
        """An address if it is on the host of the source, by the login that the source's address has."""
        found = urllib.parse.urlsplit(url) if url and is_text(url) else None
        is_own = found and (found.scheme, found.hostname, found.port) == (
            self.parts.scheme, self.parts.hostname, self.parts.port)
        return url if is_own else ""

    def find(self, wanted: Wanted) -> Found:
        names = {name: self.url_of(name) for name in wanted} if wanted else self.listed()
        found = Found()
        for name, page, why in at_once_shown("pages", self.look, list(names.items()), self.stopped):
            if why:
                found.left.append(Left(name, why))
                continue
            add_items(found, self.items_of(name, page, found), wanted)
        return found

    def look(self, one: Tuple[str, str]) -> Tuple[str, Page, str]:
        """The page of a project, or why there is none. A server that is away, or asks for a password, ends the run."""
        name, url = one
        try:
            page = self.page(url, "files")
            if page.status == "quarantined":
                return name, Page(), "the source has it in quarantine"
            return name, page, ""
        except Failure as end:
            if end.passes or end.status == 401:
                raise Stop(UNREACHED if end.passes else REFUSED, f"{url}: {end}. Nothing was "
                                                                 "imported. Run this again later.") from end
            return name, Page(), "the source has no such project" if end.status in (404, 410) else str(end)

    def items_of(self, name: str, page: Page, found: Found) -> List[Item]:
        """The files of a project that may be fetched. The others are left."""
        items: Dict[str, Item] = {}
        self.count += len(page.items)
        if self.count > MOST_FILES:
            raise Stop(WRONG, f"{self.url}/ has more than {MOST_FILES} files. Name the projects that you want.")
        for item in filter(lambda it: is_archive(it.file), page.items):
            why = self.why_not(name, item) or why_twice(items.get(item.file), item)
            if why:
                found.left.append(Left(f"{item.file} of {name}", why))
            else:
                items.setdefault(item.file, item)
        return list(items.values())

    def why_not(self, name: str, item: Item) -> str:
        """Why a file is not fetched, by its link."""
        try:
            parts_of(item.place)
        except Failure as end:
            return str(end)
        spelled = read_file_name(item.file)
        if spelled and spelled.project != name:
            return f"it is a file of {spelled.project}"
        if self.is_digest_needed and not item.sha256:
            return "the source says no SHA-256 of it; --without-digests imports it nevertheless"
        return ""

    def bytes_of(self, item: Item) -> bytes:
        def read(reply: Reply) -> bytes:
            if item.sha256 and hashlib.sha256(reply.body).hexdigest() != item.sha256:
                # one without a length may have been cut off
                raise Failure("its bytes have another digest than the page says", passes=not reply.is_whole)
            return reply.body
        return self.web.get(item.place, "*/*", MOST_BYTES, read)


def why_twice(one: Optional[Item], other: Item) -> str:
    """Why a second file of the same name can't be imported, if it has other bytes."""
    if one and not (one.sha256 and one.sha256 == other.sha256):
        return f"the source has this name twice, also at {without_password(one.place)}"
    return ""
