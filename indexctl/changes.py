"""Changes: what is asked for, what became of it, and the record of what was accepted."""
from __future__ import annotations

import argparse
import json
import secrets
import threading
from contextlib import AbstractContextManager, nullcontext
from dataclasses import replace
from types import MappingProxyType
from typing import Callable, Mapping, Optional, Tuple

from indexctl.ends import REFUSED, UNREACHED, WRONG, Stop
from indexctl.names import project_of, sha256
from indexctl.record import Record
from indexctl.refusals import hint_of
from indexctl.settings import find_setting
from indexctl.terminal import note, say_row
from indexctl.transport import Headers, Index, Request, foreign, object_of
from indexctl.units import moment_now
from package_index.names import file_path

Row = Mapping[str, object]
NOTHING_MORE: Row = MappingProxyType({})
# what the index never answers by Already: the same again would be another attempt, another case, or a refusal
NEVER_ALREADY = ("open_case", "record_attempt", "transfer", "close_case", "answer_case", "relinquish")


class Desk:
    """Asks for changes, says of each what became of it, and keeps the accepted ones in the record."""

    def __init__(self, args: argparse.Namespace) -> None:
        self.setting = find_setting(args.profile)
        self.index = Index(self.setting, args.again)
        self.is_json = bool(args.json)
        self.refused = 0
        self.record: Optional[Record] = None
        self.threads = threading.Lock()

    def token(self) -> str:
        if not self.setting.token:
            raise Stop(WRONG, f"There is no token in {self.setting.place}: set INDEX_TOKEN_FILE or INDEX_TOKEN, name a "
                              "token-file in the profile, or write it into ~/.netrc.")
        return self.setting.token

    def room(self, line: Row, is_kept: bool) -> AbstractContextManager[Callable[[], None]]:
        """The room in the record for a line. A listing needs no record, nor does a request that can't be accepted."""
        if not is_kept or not self.setting.record:
            return nullcontext(lambda: None)
        with self.threads:
            self.record = self.record or Record(self.setting.record)
        return self.record.room(line)

    def send(self, what: str, row: Row, request: Request, token: Optional[str] = None, is_kept: bool = True,
             more: Row = NOTHING_MORE) -> Tuple[int, str]:
        """The status and the name of the answer to a change. An accepted one is in the record then."""
        token = token or self.token()
        headers: Headers = (*request.headers, ("X-Index-Token", token))
        request = replace(request, headers=headers, is_once=is_kept and row["do"] in NEVER_ALREADY)
        line: Row = {"at": moment_now(), "caller": sha256(token)[:8], "index": self.setting.url, **more, **row}
        with self.room(line, is_kept) as keep:
            try:
                reply = self.index.ask(what, request)
            except KeyboardInterrupt:
                note(f"{what}: this may have been done, and is in no record", "yellow")
                raise
            found = object_of(reply.body) or {}
            answer = found.get("answer")
            # `already` at a repeat: the reply to the first may be what was lost
            if reply.status in (200, 201) and (answer == "accepted" or answer == "already" and reply.is_repeat):
                keep()
        if reply.status in (200, 201) and answer in ("accepted", "already"):
            return reply.status, str(answer)
        if is_kept and reply.is_repeat and found.get("name") in ("BadToken", "NotOwner"):
            # who took another token, or left the owners, by the first has no right to the second
            raise Stop(UNREACHED, f"{what}: the first try had no reply, and may have been done. The second was refused "
                                  f"as {found['name']}. Look at what is so before you repeat it.")
        if answer in ("refused", "message", "fault") and isinstance(found.get("name"), str):
            return reply.status, str(found["name"])
        raise foreign(what, reply)

    def post(self, what: str, row: Row, token: Optional[str] = None, is_kept: bool = True,
             more: Row = NOTHING_MORE) -> Tuple[int, str]:
        body = json.dumps(row).encode()
        request = Request("POST", "/requests", (), lambda: [body], len(body))
        return self.send(what, row, request, token, is_kept, more)

    def say(self, text: str, row: Optional[Row] = None) -> None:
        """Prints what was done: the text, or with --json the row."""
        say_row(self.is_json, text, row)

    def tell(self, what: str, row: Row, status: int, answer: str, shown: Row = NOTHING_MORE) -> bool:
        """Says what became of a change, and whether it is so now. With --json it is a row: what was asked for, the
        answer, what to do about a refusal, and of what is so now that which is to be shown."""
        told: Row = {**row, "status": status, "answer": answer}
        if status in (200, 201):
            self.say(f"{what}: {answer}" + (", nothing changed" if answer == "already" else ""), {**told, **shown})
            return True
        advice = hint_of(self.index, answer, row)
        sentence = f"{what}: {status} {answer}. {advice}".rstrip()
        if self.is_json:
            self.say(sentence, {**told, "hint": advice})
        if status == 401:
            raise Stop(REFUSED, sentence)
        self.refused += 1
        note(sentence, "red")
        return False

    def change(self, what: str, row: Row, token: Optional[str] = None, more: Row = NOTHING_MORE,
               shown: Row = NOTHING_MORE) -> bool:
        """Asks for a change by JSON, and says what became of it. Gives whether it is so now."""
        return self.tell(what, row, *self.post(what, row, token, more=more), shown)

    def delete(self, file: str, more: Row = NOTHING_MORE) -> bool:
        row, what = {"do": "delete", "file": file}, f"delete {file}"
        request = Request("DELETE", file_path(project_of(file), file))
        return self.tell(what, row, *self.send(what, row, request, more=more))

    def status(self) -> int:
        return REFUSED if self.refused else 0

    def is_user(self, user: str) -> bool:
        """Whether there is such a user. The office alone may ask.

        It asks to add the user with the office's own token. That can't be accepted: the token is taken, and the caller
        has the office flag while this asks for none. UserExists is looked for first."""
        row = {"do": "add_user", "user": user, "office": False, "token_sha256": sha256(self.token())}
        status, answer = self.post(f"user {user}", row, is_kept=False)
        if answer in ("UserExists", "TokenTaken"):
            return answer == "UserExists"
        self.tell(f"user {user}", row, status, answer)
        raise Stop(self.status(), "Nothing was done.")

    def is_own(self, user: str) -> bool:
        """Whether the token is of this user. It asks to give the user this token, which somebody has already."""
        row = {"do": "set_token", "user": user, "token_sha256": sha256(self.token())}
        return self.post(f"user {user}", row, is_kept=False)[1] == "already"

    def is_owner(self, name: str) -> bool:
        """Whether the token's user owns a held name. It asks to unyank a release that nobody has, so that nothing can
        change."""
        row = {"do": "unyank", "name": name, "release": secrets.token_hex(16)}
        return self.post(name, row, is_kept=False)[1] == "NoRelease"

    def caller(self) -> str:
        """Whether the token is of the office, of another user, or of nobody.

        It asks to allow `-`, which is no name, so that nothing can change."""
        answer = self.post("the token", {"do": "allow", "name": "-"}, is_kept=False)[1]
        return {"BadName": "office", "NotOffice": "user"}.get(answer, "nobody")
