"""Commands that end with the one that started them, and the signals that end a command of tools/."""
from __future__ import annotations

import os
import shutil
import signal
import subprocess
import sys
from contextlib import suppress
from typing import Any


def ends() -> list[signal.Signals]:
    """The signals that end a command, but for those that it has to ignore, as by nohup."""
    return [it for it in (signal.SIGINT, signal.SIGTERM, signal.SIGHUP) if signal.getsignal(it) is not signal.SIG_IGN]


def leave_at_signals() -> None:
    """Has the first signal end this process by way of its blocks, so that what it started ends, and its folders go."""
    def leave(number: int, _: object) -> None:
        for it in ends():
            signal.signal(it, signal.SIG_IGN)
        sys.exit(128 + number)
    for it in ends():
        signal.signal(it, leave)


def run(words: list[str], **more: Any) -> subprocess.CompletedProcess[str]:
    """How a command ended. All that it started ends if this process does."""
    with subprocess.Popen(words, stdin=subprocess.DEVNULL, text=True, start_new_session=True, **more) as child:
        try:
            said = printed_by(child)
        except BaseException:
            os.killpg(child.pid, signal.SIGTERM)
            raise
    return subprocess.CompletedProcess(words, child.returncode, said)


def printed_by(child: subprocess.Popen[str]) -> str:
    """What a command printed, once it has ended. A signal that comes just before a wait is heard behind it, so each
    wait is short."""
    while True:
        with suppress(subprocess.TimeoutExpired):
            return child.communicate(timeout=0.5)[0]


def why(end: Exception) -> str:
    """What was wrong with a file, in one sentence: a folder that is copied tells of each of its files."""
    return str(end.args[0][0][2] if isinstance(end, shutil.Error) else end)
