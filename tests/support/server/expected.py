"""What a test awaits of a command or of a reply: a failure prints what was awaited and what came."""
from __future__ import annotations

import subprocess


def assert_ends(ended: subprocess.CompletedProcess, status: int, *said: str) -> None:
    """The command ended with this status, and printed each of these texts."""
    missing = [text for text in said if text not in ended.stdout]
    assert (ended.returncode, missing) == (status, []), \
        f"{ended.args} ended with {ended.returncode} in place of {status}, without {missing}:\n{ended.stdout[-2000:]}"


def assert_reply(reply: tuple, status: int, kind: str | None = None, body: bytes = b"") -> None:
    """The reply has this status, this type if one is given, and these bytes in its body."""
    came = reply[0], reply[1]["Content-Type"] if kind else None, body in reply[2]
    assert came == (status, kind, True), f"{reply[0]} {reply[1].items()} {reply[2][:500]!r} in place of {status} " \
                                         f"{kind} with {body!r}"
