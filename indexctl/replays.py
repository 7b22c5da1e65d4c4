"""Replay: the lines of a record, and which of them are asked for again."""
from __future__ import annotations

import urllib.parse
import zlib
from dataclasses import dataclass
from typing import Any, Dict, List, Optional, Sequence

from indexctl.changes import Desk
from indexctl.ends import WRONG, Stop
from indexctl.logs import text_of
from indexctl.names import project_of
from indexctl.standings import Case, find_standing
from indexctl.terminal import note
from indexctl.transport import object_of
from indexctl.units import counted, iso, moment, read_moment
from package_index.names import normal

# what the office may ask for; everything else needs the owner or the user who asked for it
OFFICE_ASKS = ("add_user", "set_token", "set_quota", "prohibit", "allow", "ban_file", "record_attempt", "transfer",
               "close_case")
FILE_ASKS = ("upload", "delete", "ban_file")
# the one address at which the index takes a POST; any other is of an upload by twine or its like
REQUESTS = "/requests"


@dataclass(frozen=True)
class Line:
    """A change that was accepted at a moment. The caller and the index are None if a log does not say them. `again` is
    the moment of the line that a replay repeated by this one. `unanswered` is nginx's status if it had no answer of the
    index, which may have made the change."""
    number: int
    at: int
    caller: Optional[str]
    index: Optional[str]
    row: Dict[str, Any]
    again: Optional[int] = None
    unanswered: Optional[int] = None

    @property
    def began(self) -> int:
        """When the change was asked for first."""
        return self.at if self.again is None else self.again


def logged_row(found: Dict[str, Any]) -> Dict[str, Any]:
    """What a line of nginx's log of changes asked for, or nothing if it does not say that."""
    if found.get("method") == "POST" and found.get("path", REQUESTS) != REQUESTS:
        # older logs don't name the file, and a form that could not be read has none
        return {"do": "upload", "file": str(found.get("file", ""))}
    file = urllib.parse.unquote(str(found.get("path", "")).rsplit("/", 1)[-1])
    if found.get("method") in ("PUT", "DELETE"):
        return {"do": "upload" if found["method"] == "PUT" else "delete", "file": file}
    return object_of(str(found.get("body", "")).encode()) or {}


def is_unanswered(found: Dict[str, Any]) -> bool:
    """Whether a line of nginx's log says that it had no answer of the index to a change. Older logs don't say whether
    an index got it."""
    return isinstance(found["status"], int) and found["status"] >= 500 and found.get("reached", True) is True


def read_line(number: int, text: str) -> Optional[Line]:
    """A line of this program's record, or of nginx's log of changes; None for one that changed nothing for sure."""
    found = object_of(text.encode())
    if found is None or not isinstance(found.get("at"), str):
        raise Stop(WRONG, f"Line {number} is not a line of a record: {text[:100]!r}. Use a copy without it.")
    at = read_moment(found.pop("at"), f"Line {number}: ")
    caller = index = again = unanswered = None
    if "status" not in found:
        caller, index, row = found.pop("caller", ""), found.pop("index", None), found
        again = read_moment(str(found.pop("again")), f"Line {number}: ") if "again" in found else None
    elif found["status"] in (200, 201):
        row = logged_row(found)
    elif is_unanswered(found):
        row, unanswered = logged_row(found), found["status"]
    else:
        return None
    if not isinstance(row.get("do"), str) or row["do"] in FILE_ASKS and not isinstance(row.get("file"), str):
        if not unanswered:
            raise Stop(WRONG, f"Line {number} does not say what was asked for: {text[:100]!r}. Use a copy without it.")
        # anybody may send such a body, and no index takes it
        row = {"do": ""}
    return Line(number, at, caller, index, row, again, unanswered)


def read_lines(path: str) -> List[Line]:
    try:
        with text_of(path) as kept:
            texts = kept.read().split("\n")
    except (OSError, EOFError, zlib.error) as end:
        raise Stop(WRONG, f"{path} can't be read: {getattr(end, 'strerror', None) or end}") from end
    lines = [read_line(number, text) for number, text in enumerate(texts, 1) if text.strip()]
    return [it for it in lines if it]


def lines_since(lines: Sequence[Line], since: int, first: int) -> List[Line]:
    """The lines of this moment and later ones, from this number on. A replay adds lines to a record: those that repeat
    one of these lines are left out."""
    known = {it.at for it in lines if it.again is None and it.at >= since}
    return [it for it in lines if it.at >= since and it.number >= first and it.again not in known]


def is_attempt(line: Line, name: str) -> bool:
    return line.row["do"] == "record_attempt" and normal(str(line.row.get("name"))) == name


def is_counted(case: Case, attempts: Sequence[Line]) -> bool:
    """Whether a case has the last of these attempts: it has as many as these, as many that were sent, and one by the
    means of the last."""
    sent = sum(it.row.get("sent") is True for it in attempts)
    means = str(attempts[-1].row.get("means"))
    return case.attempts >= len(attempts) and case.sent >= sent and case.has(means)


class Attempts:
    """The attempts of a record, and those that open cases had before the replay. The index counts each that is asked
    for, so a `--since` that lies too early, or a second replay, would count them twice."""

    def __init__(self, desk: Desk, lines: Sequence[Line], since: int) -> None:
        self.desk, self.lines, self.since = desk, lines, since
        self.cases: Dict[str, Optional[Case]] = {}

    def why_left(self, line: Line) -> str:
        """Why this attempt is not asked for again, or an empty text. A database has a record up to a moment, so behind
        an attempt that it lacks it lacks all."""
        name = normal(str(line.row.get("name")))
        if not is_attempt(line, name):
            return ""
        if name not in self.cases:
            self.cases[name] = find_standing(self.desk.index, name).case
        case = self.cases[name]
        if case and is_counted(case, self.up_to(line, name, case)):
            return (f"the case of {name} has {counted(case.attempts, 'attempt')}, and seems to count this one. If it "
                    f"does not, use `indexctl case attempt {name} {line.row.get('means')}`")
        self.cases[name] = None
        return ""

    def up_to(self, line: Line, name: str, case: Case) -> List[Line]:
        """The attempts of this case up to this line that were accepted for sure. A case that was opened later was
        opened again after a restore."""
        begin = case.opened if case.opened <= line.began else self.since
        return [it for it in self.lines if is_attempt(it, name) and it.number < line.number and it.began >= begin
                and it.again is None and not it.unanswered] + [line]


def why_left(line: Line, url: str, caller: str, is_office: bool) -> str:
    """Why a line is not asked for again by this caller, or an empty text."""
    if line.unanswered:
        return (f"nginx answered it by {line.unanswered}, and the index may have made it or not: ask whoever asked for "
                "it, and look at what the index has")
    if line.row == {"do": "upload", "file": ""}:
        return ("it is an upload by twine or its like, and the log does not have the file's name: let owners upload "
                "again what is missing")
    if line.row["do"] == "upload":
        return "its bytes are needed: let an owner upload the same file again"
    if line.index and line.index != url:
        return f"it was asked of {line.index}"
    if line.row.get("for"):
        return f"it was asked for as {line.row['for']}: use `indexctl user leave {line.row['for']}` again"
    if line.caller is None:
        is_mine = is_office and line.row["do"] in OFFICE_ASKS
        return "" if is_mine else "an owner or a user asked for it, and the log does not say who"
    return "" if line.caller == caller else f"another caller asked for it ({line.caller})"


def replay_line(desk: Desk, line: Line) -> None:
    row = {key: value for key, value in line.row.items() if key != "for"}
    what = f"line {line.number}: {row['do']} " + " ".join(str(row[it]) for it in ("name", "file", "user") if it in row)
    more = {"again": iso(line.began)}
    if row["do"] == "delete":
        done = desk.delete(row["file"], more)
    else:
        done = desk.change(what.strip(), row, more=more)
    if done and row["do"] == "record_attempt":
        note(f"line {line.number}: the attempt counts from now on, not from {moment(line.at)}", "yellow")
    if not done and row["do"] == "ban_file":
        note(f"line {line.number}: a file that came after the backup too can't be banned before its bytes are uploaded "
             f"again. Meanwhile `indexctl name prohibit {project_of(row['file'])}` keeps all files of the name out.",
             "yellow")
