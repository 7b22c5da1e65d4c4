"""HTTP: requests and replies, what is asked again, and replies that no index gives."""
from __future__ import annotations

import base64
import http.client
import json
import re
import socket
import ssl
import threading
import time
import urllib.parse
import urllib.request
from contextlib import closing, suppress
from dataclasses import dataclass, replace
from http.client import HTTPConnection, HTTPMessage, HTTPSConnection
from typing import Any, Callable, Dict, Iterable, List, Optional, Sequence, Tuple

from indexctl.ends import REFUSED, UNREACHED, WRONG, Stop
from indexctl.settings import Setting, is_loopback, without_password
from indexctl.terminal import note
from indexctl.units import counted
from package_index.hints import hint

Headers = Tuple[Tuple[str, str], ...]
PASSING = (500, 502, 503, 504)
MOST_SECONDS = 90
SECONDS = re.compile("[0-9]{1,9}")
# what OpenSSL calls a certificate that is not valid yet, or no more
OUT_OF_TIME = (9, 10)
# and an authority that does not say what its key is for
NO_KEY_USAGE = 92
# what OpenSSL calls an answer that is not of TLS, such as one in plain HTTP
NO_TLS = "WRONG_VERSION_NUMBER"
JSON_PAGE = "application/vnd.pypi.simple.v1+json"
# so many requests go out at once: a few kilobytes, which a server takes in also while it waits for us to read
MOST_AHEAD = 16
# a reply that is read at a glance: its status, one length, and no coding, in a head that is not longer than this
MOST_HEAD, PIECE = 16_384, 65_536
LENGTH = re.compile(rb"\r\ncontent-length: *([0-9]{1,9})(?=\r\n)")
CODED = re.compile(rb"\r\n(?:transfer|content)-encoding:")


@dataclass(frozen=True)
class Reply:
    """One reply. `is_repeat` says that the request had gone out before: what it asked for may have been done then."""
    status: int
    headers: HTTPMessage
    body: bytes
    is_repeat: bool = False


@dataclass(frozen=True)
class Request:
    """One request. `pieces` gives its body, and is called again if it is sent again. `is_once` says that it never is:
    the index would not answer Already to the second."""
    method: str
    path: str
    headers: Headers = ()
    pieces: Optional[Callable[[], Iterable[bytes]]] = None
    length: int = 0
    is_once: bool = False


class PlainConnection(HTTPConnection):
    """A connection that finds the address of its host once, since an index without nginx ends it after each reply."""
    found: Optional[Tuple[socket.AddressFamily, Any]] = None

    def connect(self) -> None:
        found, self.found = self.found, None
        if found:
            self.sock = socket.socket(found[0])
            self.sock.settimeout(self.timeout)
            self.sock.connect(found[1])
        else:
            super().connect()
            found = self.sock.family, self.sock.getpeername()
        self.found = found


class Kept(threading.local):
    """What each thread keeps: its open connection, and how many requests may go out at once on that."""
    connection: Optional[HTTPConnection] = None
    ahead = 1


def basic(login: str) -> str:
    """What a proxy that asks for a password is told: a user, `:` and the password."""
    return f"Basic {base64.b64encode(login.encode()).decode()}"


class NotSent(Exception):
    """There is no connection, so nothing of a request went out."""


class Index:
    """The index at an address. What passes by itself is asked again, with a pause."""

    def __init__(self, setting: Setting, again: int = 6, patience: float = MOST_SECONDS) -> None:
        self.setting, self.again, self.patience = setting, max(0, again), patience
        self.parts, self.kept = urllib.parse.urlsplit(setting.url), Kept()
        self.headers: Dict[str, str] = {"User-Agent": "indexctl"}
        if setting.basic:
            self.headers["Authorization"] = basic(setting.basic)
        try:
            self.trust = ssl.create_default_context(cafile=setting.ca) if self.parts.scheme == "https" else None
        except (OSError, ssl.SSLError) as end:
            raise Stop(WRONG, f"The certificates in {setting.ca} can't be read: {end}") from end

    def opened(self, host: str, port: Optional[int]) -> HTTPConnection:
        if self.trust:
            return HTTPSConnection(host, port, timeout=self.patience, context=self.trust)
        return PlainConnection(host, port, timeout=self.patience)

    def proxy(self) -> str:
        """The proxy through which the network reaches the index, or an empty text."""
        host = self.parts.hostname or ""
        proxy = urllib.request.getproxies().get(self.parts.scheme) if self.trust else None
        return proxy if proxy and not is_loopback(host) and not urllib.request.proxy_bypass(host) else ""

    def connection(self) -> HTTPConnection:
        """A new connection, which is not open yet, through the proxy of the network if the environment names one."""
        host, port, proxy = self.parts.hostname or "", self.parts.port, self.proxy()
        if proxy:
            through = urllib.parse.urlsplit(proxy if "//" in proxy else f"//{proxy}")
            made = self.opened(through.hostname or "", through.port or 80)
            login = f"{urllib.parse.unquote(through.username or '')}:{urllib.parse.unquote(through.password or '')}"
            made.set_tunnel(host, port or 443, {} if login == ":" else {"Proxy-Authorization": basic(login)})
            return made
        # (without a port http.client takes one from the end of an address of IPv6)
        return self.opened(host, port or (443 if self.trust else 80))

    def connect(self, connection: HTTPConnection) -> None:
        try:
            connection.connect()
        except ssl.SSLCertVerificationError as end:
            raise Stop(WRONG, untrusted(self.setting.url, end)) from end
        except OSError as end:
            if isinstance(end, socket.gaierror) and end.errno == socket.EAI_NONAME:
                place = "https_proxy" if self.proxy() else self.setting.place
                raise Stop(WRONG, f"There is no host {connection.host}, which {place} names. Is the address "
                                  "right?") from end
            if getattr(end, "reason", "") == NO_TLS:
                raise Stop(WRONG, f"What answers at {self.setting.url}, which {self.setting.place} names, does not "
                                  "speak TLS. Is the address right?") from end
            raise NotSent(end) from end

    def once(self, request: Request) -> Reply:
        """The reply to a request that goes out once, also to one that is answered before all of it went out."""
        with closing(self.connection()) as connection:
            self.connect(connection)
            connection.putrequest(request.method, request.path)
            for name, value in {**self.headers, **dict(request.headers), "Content-Length": str(request.length)}.items():
                connection.putheader(name, value)
            connection.endheaders()
            with suppress(BrokenPipeError, ConnectionResetError):
                for piece in request.pieces() if request.pieces else ():
                    connection.send(piece)
            reply = connection.getresponse()
            return Reply(reply.status, reply.headers, reply.read())

    def kept_connection(self) -> HTTPConnection:
        """The open connection that this thread keeps: behind nginx that spares a handshake for each GET."""
        connection = self.kept.connection = self.kept.connection or self.connection()
        if connection.sock is None:
            self.connect(connection)
        return connection

    def leave(self) -> None:
        """Closes the connection that this thread keeps, after a reply that was not read to its end."""
        if self.kept.connection:
            self.kept.connection.close()

    def look(self, request: Request) -> Reply:
        """The reply to a GET."""
        try:
            connection = self.kept_connection()
            connection.request("GET", request.path, headers={**self.headers, **dict(request.headers)})
            reply = connection.getresponse()
            return Reply(reply.status, reply.headers, reply.read())
        except BaseException:
            self.leave()
            raise

    def glances(self, paths: Sequence[str]) -> List[Optional[bytes]]:
        """The bodies of plain replies of 200 to GETs, each None for any other, which `ask` has to look at.

        A walk over all names asks so: to make a request by http.client and to read a head by it takes most of its
        time. On a connection that the last reply has kept several go out at once."""
        headers = {"Host": self.parts.netloc, "Accept-Encoding": "identity", **self.headers}
        rest = "".join((" HTTP/1.1\r\n", *(f"{name}: {value}\r\n" for name, value in headers.items()), "\r\n"))
        found: List[Optional[bytes]] = []
        # where nobody answers the others are not tried, of which each may take as long
        with suppress(NotSent, OSError):
            while len(found) < len(paths):
                ahead = paths[len(found):len(found) + self.kept.ahead]
                is_last = True
                try:
                    peer = self.kept_connection().sock
                    peer.sendall("".join(f"GET {path}{rest}" for path in ahead).encode("latin-1"))
                    is_last = read_plain(peer, len(ahead), found)
                finally:
                    self.kept.ahead = 1 if is_last else MOST_AHEAD
                    if is_last:
                        self.leave()
        return found + [None] * (len(paths) - len(found))

    def ask(self, what: str, request: Request) -> Reply:
        """The reply, once it is none that passes by itself. Stops if there is no such reply after all trials."""
        is_repeat, was_sent, why = False, True, ""
        for trial in range(self.again + 1):
            later, was_sent = "", True
            try:
                reply = (self.look if request.method == "GET" else self.once)(request)
                if reply.status not in PASSING:
                    return replace(reply, is_repeat=is_repeat)
                why, later = f"{reply.status} {first_words(reply)}", reply.headers.get("Retry-After", "")
            except NotSent as end:
                why, was_sent = str(end.args[0]), False
            except (OSError, http.client.HTTPException) as end:
                why = repr(end)
            is_repeat = is_repeat or was_sent
            if request.is_once and was_sent:
                raise Stop(UNREACHED, f"{what}: {why}. It was not sent again, since it may have been done. Look first: "
                                      "`indexctl who` shows the name's owners, and `indexctl case show` its case.")
            if trial < self.again:
                pause = min(30, max(0.5 * 2 ** trial, int(later) if SECONDS.fullmatch(later) else 0))
                note(f"{what}: {why}. Again in {pause:g} s.")
                time.sleep(pause)
        maybe = " It may have been done, and is in no record then." if is_repeat and request.method != "GET" else ""
        cause = f"The index at {self.setting.url} does not answer now."
        if not was_sent and self.proxy():
            cause = (f"It is asked through the proxy {without_password(self.proxy())}, which https_proxy names. Is "
                     "that right? If the index needs no proxy, name its host in no_proxy.")
        if why == "500 Store" and request.method != "GET":
            cause = hint("Store")
        raise Stop(UNREACHED, f"{what}: {why}, {counted(self.again + 1, 'time')}. {cause}{maybe} Run this again later.")


def read_plain(peer: socket.socket, count: int, found: List[Optional[bytes]]) -> bool:
    """Reads so many replies, or fewer if one is the last on its connection: the body of each of 200 with a length and
    as it is, or None for any other. Gives whether nothing more may be asked on this connection."""
    given, is_last = b"", False
    while count and not is_last:
        while b"\r\n\r\n" not in given:
            more = peer.recv(PIECE)
            if not more or len(given) > MOST_HEAD:
                found.append(None)
                return True
            given += more
        first, _, given = given.partition(b"\r\n\r\n")
        head = first.lower() + b"\r\n"
        lengths = LENGTH.findall(head)
        is_plain = (head.startswith(b"http/1.1 200 ") and head.count(b"\r\ncontent-length") == len(lengths) == 1
                    and not CODED.search(head))
        length, count = int(lengths[0]) if is_plain else 0, count - 1
        while len(given) < length:
            more = peer.recv(PIECE)
            if not more:
                found.append(None)
                return True
            given += more
        body, given = given[:length], given[length:]
        # what comes behind the last reply is none that was asked for
        is_plain = is_plain and bool(count or not given)
        found.append(body if is_plain else None)
        is_last = not is_plain or b"\r\nconnection: close\r\n" in head
    return is_last


def untrusted(url: str, end: ssl.SSLCertVerificationError) -> str:
    """Why a certificate is not trusted, and what to do about it."""
    if end.verify_code in OUT_OF_TIME:
        return (f"The certificate of {url} is not valid at this time: {end.verify_message}. Is your clock right? If it "
                "is, tell the operator of the index.")
    if end.verify_code == NO_KEY_USAGE:
        return (f"The authority that vouches for {url} has no keyUsage, which Python asks for from 3.13 on. Tell the "
                "operator of the index, and use an older Python until then.")
    return (f"The certificate of {url} is not trusted: {end.verify_message}. INDEX_CA, or `ca` of the profile, may "
            "name a file of certificates to trust.")


def first_words(reply: Reply) -> str:
    """The name of an answer of the index, or what else the reply begins with."""
    found = object_of(reply.body)
    return str((found or {}).get("name") or (found or {}).get("answer") or reply.body[:100].decode("utf-8", "replace"))


def object_of(body: bytes) -> Optional[Dict[str, Any]]:
    """The JSON object that a body is, or None."""
    try:
        # text, not bytes: else it is guessed first which of five codings they have
        found = json.loads(str(body, "utf-8"))
    except (ValueError, RecursionError):
        return None
    return found if isinstance(found, dict) else None


def foreign(what: str, reply: Reply) -> Stop:
    """The end of a run that got an answer that no index gives."""
    kind = reply.headers.get("Content-Type", "no type")
    if reply.status == 401:
        return Stop(REFUSED, f"{what}: 401. What stands in front of the index asks for a password: put it into "
                             "~/.netrc, into the address (https://user:password@..), or into the profile by user and "
                             "password-file.")
    if reply.status in (301, 302, 303, 307, 308):
        return Stop(WRONG, f"{what}: {reply.status}, a redirect to {reply.headers.get('Location')}. Name the index "
                           "by its own address.")
    if reply.status == 413:
        return Stop(REFUSED, f"{what}: 413. {hint('BodyTooLarge')}")
    if reply.status == 403:
        return Stop(REFUSED, f"{what}: 403. What stands in front of the index forbids this: {reply.body[:100]!r}")
    return Stop(UNREACHED, f"{what}: {reply.status} {kind}. This is no answer of an index: {reply.body[:100]!r}. Is "
                           "the address right?")
