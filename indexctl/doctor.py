"""What may keep a person from an index: each thing is looked at, with what to do if it is not right."""
from __future__ import annotations

import argparse
import email.utils
import io
import os
import re
import socket
import ssl
import time
import zipfile
from contextlib import closing, suppress
from dataclasses import dataclass
from typing import Callable, Iterator, List, Optional

from indexctl.about import VERSION
from indexctl.changes import Desk
from indexctl.ends import Stop
from indexctl.settings import without_password
from indexctl.standings import path_of
from indexctl.transport import Reply, Request
from indexctl.units import counted, moment

# of a certificate that ends soon, in days; and of a clock that is wrong, in seconds
FEW_DAYS, MOST_OFF = 14, 60
DAY = 86_400
# of the tool that the index serves: its bytes, and of the file inside that has its version
MOST_TOOL, MOST_ABOUT = 4 << 20, 1 << 18
TOOL, ABOUT = "/indexctl", "indexctl/about.py"
WELL, LOOK, WRONG = "ok", "look", "wrong"


@dataclass(frozen=True)
class Finding:
    """One thing: its name, `ok`, `look` or `wrong`, what was found, and what to do."""
    what: str
    state: str
    found: str
    do: str = ""


def looked(what: str, look: Callable[[], Finding]) -> Finding:
    """A finding, or the sentence of what ended the look."""
    try:
        return look()
    except (Stop, OSError) as end:
        return Finding(what, WRONG, "", str(end))


def findings(args: argparse.Namespace) -> Iterator[Finding]:
    """Each thing in the order in which a request meets it. What needs one that is wrong is not looked at."""
    try:
        desk = Desk(args)
    except Stop as end:
        yield Finding("address", WRONG, "", str(end))
        return
    yield Finding("address", WELL, f"{desk.setting.url}, from {desk.setting.place}")
    yield proxy_of(desk)
    # through a proxy it is the proxy that finds the host
    if not desk.index.proxy():
        yield looked("host", lambda: host_of(desk))
    if desk.index.trust:
        yield looked("certificate", lambda: certificate_of(desk))
    replies: List[Reply] = []

    def ask() -> Finding:
        replies.append(desk.index.ask("the index", Request("GET", path_of("x"))))
        return answer_of(replies[0])
    yield looked("answer", ask)
    if replies:
        yield clock_of(replies[0], time.time())
        yield looked("token", lambda: token_of(desk))
        yield looked("version", lambda: version_of(desk))
    yield looked("record", lambda: record_of(desk.setting.record))


def proxy_of(desk: Desk) -> Finding:
    proxy = desk.index.proxy()
    if not proxy:
        return Finding("proxy", WELL, "none")
    return Finding("proxy", WELL, f"{without_password(proxy)}, from https_proxy")


def host_of(desk: Desk) -> Finding:
    host = desk.index.parts.hostname or ""
    try:
        found = socket.getaddrinfo(host, None, type=socket.SOCK_STREAM)
    except OSError as end:
        return Finding("host", WRONG, f"{host}: {end.strerror or end}", f"Is the address right, which "
                       f"{desk.setting.place} names? If your network needs a proxy, set https_proxy.")
    return Finding("host", WELL, f"{host} is {', '.join(sorted({str(it[4][0]) for it in found}))}")


def certificate_of(desk: Desk) -> Finding:
    """Whether the certificate is trusted, and how long it is valid."""
    connection = desk.index.connection()
    with closing(connection):
        try:
            desk.index.connect(connection)
        except Stop as end:
            return Finding("certificate", WRONG, "", str(end))
        except Exception as end:
            return Finding("certificate", WRONG, str(end), "Nothing answers there. Is the index up?")
        peer = connection.sock
        ends = str((peer.getpeercert() or {}).get("notAfter", "")) if isinstance(peer, ssl.SSLSocket) else ""
    return days_of(ssl.cert_time_to_seconds(ends), time.time()) if ends else Finding("certificate", LOOK, "unknown")


def days_of(ends: float, now: float) -> Finding:
    days = int((ends - now) // DAY)
    found = f"trusted, until {moment(int(ends))}, for {counted(days, 'day')}"
    return Finding("certificate", WELL, found) if days >= FEW_DAYS else Finding(
        "certificate", LOOK, found, "Tell the operator of the index that it ends soon.")


def answer_of(reply: Reply) -> Finding:
    if reply.status == 200 and b'"state"' in reply.body:
        return Finding("answer", WELL, "the index answers")
    if reply.status == 401:
        return Finding("answer", WRONG, "401", "What stands in front of the index asks for a password: put it into "
                       "~/.netrc, or into the profile by user and password-file.")
    return Finding("answer", WRONG, f"{reply.status} {reply.body[:60]!r}", "No index answers so. Is the address right?")


def clock_of(reply: Reply, now: float) -> Finding:
    """How far the clock of this machine is from that of the index, by the date of its reply."""
    try:
        there = email.utils.parsedate_to_datetime(reply.headers.get("Date", "")).timestamp()
    except (TypeError, ValueError, IndexError):
        return Finding("clock", WELL, "not compared: the reply has no date")
    off = round(now - there)
    if abs(off) <= MOST_OFF:
        return Finding("clock", WELL, "as that of the index")
    where = "ahead of" if off > 0 else "behind"
    return Finding("clock", LOOK, f"{counted(abs(off), 'second')} {where} that of the index",
                   "Set this machine's clock. If it is right, tell the operator of the index.")


def token_of(desk: Desk) -> Finding:
    if not desk.setting.token:
        return Finding("token", LOOK, "none", "To change something, set INDEX_TOKEN_FILE or INDEX_TOKEN, or name a "
                       "token-file in the profile.")
    caller = desk.caller()
    if caller == "nobody":
        return Finding("token", WRONG, f"from {desk.setting.source}: no user has it", "Correct it there, or ask the "
                       "office for another.")
    return Finding("token", WELL, f"of {'the office' if caller == 'office' else 'a user'}, from {desk.setting.source}")


def version_of(desk: Desk) -> Finding:
    """The version of this tool beside that of the one that the index serves."""
    reply = desk.index.ask("the tool", Request("GET", TOOL))
    there = version_in(reply.body) if reply.status == 200 else None
    if there is None:
        return Finding("version", WELL, f"{VERSION}; the index serves no indexctl to compare with")
    if there == VERSION:
        return Finding("version", WELL, f"{VERSION}, as the index has it")
    return Finding("version", LOOK, f"{VERSION}, and the index has {there}",
                   f"Take its own: curl -fsSO {desk.setting.url}{TOOL}")


def version_in(data: bytes) -> Optional[str]:
    """The version of an indexctl of one file, or None if this is none."""
    with suppress(zipfile.BadZipFile, KeyError, OSError, ValueError, NotImplementedError, RuntimeError):
        if len(data) <= MOST_TOOL:
            with zipfile.ZipFile(io.BytesIO(data)) as tool, tool.open(ABOUT) as about:
                text = about.read(MOST_ABOUT).decode("utf-8", "replace")
            found = re.search(r'^VERSION = "([0-9A-Za-z.+-]{1,32})"$', text, re.M)
            return found[1] if found else None
    return None


def record_of(path: str) -> Finding:
    """Whether the record can be written. It is not made."""
    if not path:
        return Finding("record", WELL, "none is kept")
    if os.name == "nt":
        return Finding("record", WRONG, path, "No record can be kept on Windows: unset it.")
    place = path if os.path.exists(path) else os.path.dirname(os.path.abspath(path))
    if os.path.isdir(path) or not os.access(place, os.W_OK):
        return Finding("record", WRONG, path, f"It can't be written. Name another file, or let yourself write {place}.")
    return Finding("record", WELL, path)
