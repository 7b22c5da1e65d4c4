"""The last changes, and when each file was uploaded, out of nginx's log of changes. What a run found is kept: the log
goes after some days."""
from __future__ import annotations

import json
import os
import re
import urllib.parse
from contextlib import suppress
from dataclasses import asdict, dataclass, field
from typing import Any, Container, Dict, Iterator, List, NamedTuple, Optional, Sequence, Tuple

from indexctl.page import open_itself, put_whole
from indexctl.standings import LAST_MOMENT, is_number
from indexctl.terminal import note
from indexctl.transport import object_of
from package_index.changes import lines_of, moment_in
from package_index.log_place import rotated
from package_index.names import is_name, is_version, normal, read_file_name

KEPT, MOST_CHANGES, MOST_REASON = ".changes.json", 100, 300
# files of a log that were written so long before the last line of a run before have nothing new
SLACK = 86_400
UPLOADS = "/legacy/"
ASKED = {"claim": "", "yank": "release", "unyank": "release"}


class Change(NamedTuple):
    """A change that everybody can see: what was done with a file or release of a project, at a moment."""
    at: int
    do: str
    name: str
    what: str = ""
    reason: str = ""


@dataclass
class Log:
    """The last changes, the oldest first, and by the name of each file that is there when it was uploaded. Up to
    `until` the log was read."""
    last: List[Change] = field(default_factory=list)
    uploaded: Dict[str, int] = field(default_factory=dict)
    until: int = 0


def change_of(line: str) -> Optional[Change]:
    """The change that a line says, or None for one that was refused, or that is not for everybody."""
    found, moment = object_of(line.encode("utf-8", "replace")), moment_in(line)
    if not found or not moment or not 0 <= moment.timestamp() < LAST_MOMENT:
        return None
    at, method, status = int(moment.timestamp()), found.get("method"), found.get("status")
    path = str(found.get("path", ""))
    if method == "POST" and path == "/requests" and status == 200:
        return request_of(at, object_of(str(found.get("body", "")).encode("utf-8", "replace")) or {})
    if (method, status) in (("PUT", 201), ("DELETE", 200)) and path.startswith("/files/"):
        return file_of(at, "upload" if method == "PUT" else "delete", urllib.parse.unquote(path.rsplit("/", 1)[-1]))
    if method == "POST" and path == UPLOADS and status == 200:
        return file_of(at, "upload", str(found.get("file", "")))
    return None


def file_of(at: int, do: str, file: str) -> Optional[Change]:
    spelled = read_file_name(file)
    return Change(at, do, spelled.project, file) if spelled else None


def request_of(at: int, found: Dict[str, Any]) -> Optional[Change]:
    """A request of a kind that everybody sees. Who asked for it, and the reason of anything else, stay in the log."""
    do, name, reason = found.get("do"), found.get("name"), found.get("reason")
    if not isinstance(do, str) or do not in ASKED or not isinstance(name, str) or not is_name(name):
        return None
    what = found.get(ASKED[do], "")
    if not isinstance(what, str) or ASKED[do] and not is_version(what):
        return None
    return Change(at, do, normal(name), what.lower(), reason[:MOST_REASON] if isinstance(reason, str) else "")


def changes_in(log: str, since: int) -> Iterator[Change]:
    """The changes of a log, and of what was rotated away of it, from about this moment on."""
    for path in rotated(log):
        with suppress(FileNotFoundError):
            if os.path.getmtime(path) >= since - SLACK:
                yield from filter(None, map(change_of, lines_of(path)))


def without_repeats(found: Sequence[Change]) -> Iterator[Change]:
    """The changes without those that repeat the one before of the same file, release or name: the index answers these
    too."""
    before: Dict[Tuple[bool, str, str], str] = {}
    for it in found:
        key = it.do in ("upload", "delete"), it.name, it.what
        if before.get(key) != it.do:
            before[key] = it.do
            yield it


def read_logs(kept: Log, logs: Sequence[str], files: Container[str]) -> Log:
    """What the logs say beyond what was kept. Of files that are gone no moment is kept."""
    uploaded, until, found = dict(kept.uploaded), kept.until, set(kept.last)
    for log in logs:
        for it in told_changes(log, kept.until):
            until = max(until, it.at)
            found.add(it)
            if it.do == "upload" and it.what in files:
                uploaded[it.what] = min(it.at, uploaded.get(it.what, it.at))
            if len(found) > 50 * MOST_CHANGES:
                found = set(sorted(found)[-2 * MOST_CHANGES:])
    last = list(without_repeats(sorted(found)))[-MOST_CHANGES:]
    return Log(last, {file: at for file, at in uploaded.items() if file in files}, until)


def told_changes(log: str, since: int) -> Iterator[Change]:
    """The same as `changes_in`. If the log is not there, or can't be read, that is said, and the pages are made all the
    same."""
    try:
        if not rotated(log):
            note(f"There is no {log}: the pages have nothing new from it.")
        yield from changes_in(log, since)
    except OSError as end:
        note(f"{log} can't be read: {end.strerror}. The pages have nothing new from it.")


def read_kept(folder: str) -> Log:
    """What the run before kept, as far as it is of its kind."""
    try:
        with open(os.path.join(folder, KEPT), encoding="utf-8", errors="replace", opener=open_itself) as file:
            found = object_of(file.read().encode()) or {}
    except FileNotFoundError:
        return Log()
    last, uploaded, until = found.get("last"), found.get("uploaded"), found.get("until")
    is_whole = (isinstance(last, list) and all(map(is_change, last)) and isinstance(uploaded, dict)
                and all(is_number(it, LAST_MOMENT) for it in uploaded.values()) and is_number(until, LAST_MOMENT))
    return Log([Change(*it) for it in last or []], uploaded or {}, until or 0) if is_whole else Log()


def is_change(found: Any) -> bool:
    return (isinstance(found, list) and len(found) == len(Change._fields) and is_number(found[0], LAST_MOMENT)
            and all(isinstance(it, str) for it in found[1:]) and is_name(found[2])
            and re.fullmatch("upload|delete|claim|yank|unyank", found[1]) is not None)


def keep(folder: str, log: Log) -> None:
    put_whole(os.path.join(folder, KEPT), [json.dumps(asdict(log))], is_synced=False)
