"""What other servers give: redirects are followed, what passes by itself is asked for again, and no server can make a
run read without an end."""
from __future__ import annotations

import email.utils
import http.client
import ssl
import threading
import time
import urllib.parse
from contextlib import suppress
from dataclasses import dataclass
from typing import Callable, Dict, Optional, Tuple, TypeVar

from indexctl.ends import WRONG, Stop
from indexctl.settings import Setting, plain_url, without_password
from indexctl.terminal import note
from indexctl.transport import SECONDS, Index, NotSent

Result = TypeVar("Result")
PASSING, REDIRECTS = (429, 500, 502, 503, 504), (301, 302, 303, 307, 308)
MOST_REDIRECTS, PIECE = 5, 1 << 18
# of one reply, and of a pause that a server asks for, in seconds
MOST_SECONDS, MOST_PAUSE = 300, 300
SAFE = "/%:@!$&'()*+,;=~-._?"


class Failure(Exception):
    """Why something can't be had. What passes by itself is asked for again, later if the server says so."""

    def __init__(self, why: str, passes: bool = False, later: int = 0, status: int = 0) -> None:
        super().__init__(why)
        self.passes, self.later, self.status = passes, later, status


@dataclass(frozen=True)
class Reply:
    """A reply of 200: its type, its bytes, and where they came from at last. `is_whole` says that its length was
    known."""
    kind: str
    body: bytes
    url: str
    is_whole: bool = True


def parts_of(url: str) -> urllib.parse.SplitResult:
    """The parts of an address of http or https. No other is ever asked."""
    try:
        parts = urllib.parse.urlsplit(url)
        if parts.scheme in ("http", "https") and parts.hostname and parts.port != 0 and url.isprintable():
            return parts
    except ValueError:
        pass
    raise Failure(f"{without_password(url)[:200]!r} is no address of http or https")


def seconds_of(text: str) -> int:
    """What Retry-After says, in seconds or by a date (RFC 9110)."""
    if SECONDS.fullmatch(text):
        return int(text)
    with suppress(TypeError, ValueError, IndexError, OverflowError):
        return max(0, int(email.utils.parsedate_to_datetime(text).timestamp() - time.time()))
    return 0


class Web:
    """Servers, each asked by the proxy of the network, and by TLS if its address says so. The login goes to the host
    of the source alone. `stopped` ends each pause."""

    def __init__(self, ca: str, again: int, host: str, login: str, stopped: threading.Event) -> None:
        self.ca, self.again, self.host, self.login, self.stopped = ca, max(0, again), host, login, stopped
        self.sites: Dict[str, Index] = {}
        self.lock = threading.Lock()

    def site(self, parts: urllib.parse.SplitResult) -> Index:
        url = plain_url(parts)
        with self.lock:
            if url not in self.sites:
                login = self.login if parts.hostname == self.host else ""
                made = Index(Setting("the source", url, "", "", "", "", login))
                if made.trust and self.ca:
                    # beside those of the system: the source may be of either
                    with_ca(made.trust, self.ca)
                self.sites[url] = made
            return self.sites[url]

    def get(self, url: str, accept: str, most: int, read: Callable[[Reply], Result]) -> Result:
        """What is read of the reply from an address, once both worked."""
        for trial in range(self.again + 1):
            try:
                return read(self.followed(url, accept, most))
            except Failure as end:
                if not end.passes or trial == self.again or self.stopped.is_set():
                    raise
                pause = min(MOST_PAUSE, max(0.5 * 2 ** trial, end.later))
                note(f"{without_password(url)}: {end}. Again in {pause:g} s.")
                self.stopped.wait(pause)
        raise AssertionError

    def followed(self, url: str, accept: str, most: int) -> Reply:
        """The reply at the end of redirects. None leads from TLS to the clear."""
        for _ in range(MOST_REDIRECTS + 1):
            parts = parts_of(url)
            found, target = self.once(parts, accept, most)
            if found:
                return found
            url = urllib.parse.urljoin(url, target)
            if parts.scheme == "https" and parts_of(url).scheme == "http":
                raise Failure(f"it redirects to {without_password(url)}, which is not encrypted")
        raise Failure(f"it redirects more than {MOST_REDIRECTS} times")

    def once(self, parts: urllib.parse.SplitResult, accept: str, most: int) -> Tuple[Optional[Reply], str]:
        """The reply, or where it redirects to. A server that dawdles is cut off, in whichever part of its reply."""
        index = self.site(parts)
        is_kept = bool(index.kept.connection and index.kept.connection.sock)
        try:
            return exchange(index, parts, accept, most)
        except NotSent as end:
            raise Failure(f"it can't be reached: {end.args[0]}", passes=True) from end
        except Stop as end:
            raise Failure(str(end)) from end
        except (OSError, http.client.HTTPException) as end:
            if is_kept:
                # the server may have closed it since
                return self.once(parts, accept, most)
            raise Failure(f"the connection was lost: {end!r}", passes=True) from end


def with_ca(trust: ssl.SSLContext, path: str) -> None:
    try:
        trust.load_verify_locations(path)
    except (OSError, ssl.SSLError) as end:
        raise Stop(WRONG, f"The certificates in {path} can't be read: {end}") from end


class Cut(Failure):
    """A server that took too long."""

    def __init__(self) -> None:
        super().__init__(f"it took more than {MOST_SECONDS} s")


def exchange(index: Index, parts: urllib.parse.SplitResult, accept: str, most: int) -> Tuple[Optional[Reply], str]:
    is_late = threading.Event()
    connection = index.kept_connection()

    def cut(peer: "object" = connection.sock) -> None:
        is_late.set()
        with suppress(OSError):
            peer.shutdown(2)  # type: ignore[attr-defined]
    timer = threading.Timer(MOST_SECONDS, cut)
    timer.daemon = True
    timer.start()
    try:
        asked = urllib.parse.quote(parts.path or "/", SAFE) + (f"?{urllib.parse.quote(parts.query, SAFE)}"
                                                               if parts.query else "")
        connection.request("GET", asked, headers={**index.headers, "Accept": accept, "Accept-Encoding": "identity"})
        # the reply of a server that then leaves takes the connection along, and nothing else closes that
        with connection.getresponse() as reply:
            if reply.status != 200:
                index.leave()
                return None, target_of(reply)
            found = reply_of(reply, parts.geturl(), most)
        if is_late.is_set():
            # http.client takes the end of a connection for that of a head
            raise Cut
        return found, ""
    except BaseException as end:
        index.leave()
        if is_late.is_set() and not isinstance(end, KeyboardInterrupt):
            raise Cut from end
        raise
    finally:
        timer.cancel()


def target_of(reply: http.client.HTTPResponse) -> str:
    """Where a reply redirects to. Any other fails."""
    if reply.status in REDIRECTS and reply.headers.get("Location"):
        return str(reply.headers["Location"])
    if reply.status == 401:
        raise Failure("401, it asks for a password: put it into the address (https://user:password@..) or into "
                      "~/.netrc", status=401)
    raise Failure(f"{reply.status} {printable(reply.reason)}".strip(), reply.status in PASSING,
                  seconds_of(reply.headers.get("Retry-After", "")), reply.status)


def printable(text: str) -> str:
    return "".join(filter(str.isprintable, text))[:100]


def reply_of(reply: http.client.HTTPResponse, url: str, most: int) -> Reply:
    """A whole reply that has at most so many bytes."""
    length = reply.length
    if reply.headers.get("Content-Encoding", "identity") != "identity":
        raise Failure("it is compressed, although that was not asked for")
    if length is not None and length > most:
        raise Failure(f"it has {length} bytes, and {most} is the most")
    pieces, size = [], 0
    while length is None or size < length:
        piece = reply.read(PIECE if length is None else min(PIECE, length - size))
        size += len(piece)
        if size > most:
            raise Failure(f"it has more than {most} bytes")
        if not piece:
            break
        pieces.append(piece)
    if length is not None and size < length:
        raise http.client.IncompleteRead(b"", length - size)
    is_whole = length is not None or bool(reply.chunked)
    return Reply(reply.headers.get_content_type(), b"".join(pieces), url, is_whole)
