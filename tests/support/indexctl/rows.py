"""Standings, cases and replies as plain values, for tests without a server."""
from __future__ import annotations

import argparse
import email.message
from typing import Any, Dict, List, Optional, Sequence

from indexctl.settings import Setting
from indexctl.standings import Case, Standing
from indexctl.transport import Reply, Request

OPENED = 1_000_000_000
CASE: Dict[str, Any] = {"kind": "reuse", "candidate": "bob", "contact": "c", "work": "w", "why": "y", "opened": OPENED,
                        "attempts": 3, "sent": 3, "profile": True, "author": True, "pages": True, "first": OPENED}
SETTING = Setting("the environment", "http://127.0.0.1:9", "office", "INDEX_TOKEN", "", "", "")


def case_of(**changed: Any) -> Case:
    return Case(**{**CASE, **changed})


def held(name: str = "frob", **changed: Any) -> Standing:
    """A held name of ann."""
    return Standing(**{"name": name, "state": "held", "shown": name, "owners": ["ann"], "charge": 0, "quota": 1_000,
                       "case": None, **changed})


def reply(status: int, body: bytes, **headers: str) -> Reply:
    made = email.message.Message()
    for name, value in headers.items():
        made[name.replace("_", "-")] = value
    return Reply(status, made, body)  # type: ignore[arg-type]


def args(**given: Any) -> argparse.Namespace:
    return argparse.Namespace(**{"yes": False, "json": False, "profile": None, "again": 0, **given})


class FakeIndex:
    """Answers by replies in their order, and keeps what it was asked. `glances` are the bodies that are seen at a
    glance."""

    def __init__(self, *replies: Reply, setting: Optional[Setting] = None, glances: Sequence[bytes] = ()) -> None:
        self.setting, self.left, self.seen = setting or SETTING, list(replies), list(glances)
        self.asked: List[Request] = []
        self.glanced: List[str] = []

    def glances(self, paths: Sequence[str]) -> List[Optional[bytes]]:
        self.glanced += paths
        return [self.seen.pop(0) if self.seen else None for _ in paths]

    def ask(self, _what: str, request: Request) -> Reply:
        self.asked.append(request)
        return self.left.pop(0)
