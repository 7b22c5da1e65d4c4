"""A terminal of 60 columns, or as many as a test wants, on which indexctl runs and a person types."""
from __future__ import annotations

import os
import pty
import re
import select
import struct
import termios
import time
from fcntl import ioctl
from typing import List, Optional, Tuple

from support.indexctl.control import PATIENCE, Control

COLUMNS, ESCAPE = 60, re.compile(r"\x1b\[[0-9;]*[mK]")


def on_terminal(by: Control, *words: str, types: str = "", columns: int = COLUMNS,
                **setting: Optional[str]) -> Tuple[int, str]:
    """The status of a run, and what it prints on a terminal of so many columns. `types` is typed when it asks."""
    lead, end = pty.openpty()
    ioctl(end, termios.TIOCSWINSZ, struct.pack("HHHH", 24, columns, 0, 0))
    process = by.start(*words, streams={"stdin": end, "stdout": end, "stderr": end},
                       **{"TERM": "xterm", "COLUMNS": None, "LINES": None, **setting})
    os.close(end)
    seen, until = b"", time.monotonic() + PATIENCE
    while time.monotonic() < until:
        if not select.select([lead], [], [], 0.2)[0]:
            continue
        try:
            seen += os.read(lead, 4096)
        except OSError:
            break
        if types and b"Type" in seen:
            os.write(lead, types.encode())
            types = ""
    os.close(lead)
    try:
        return process.wait(timeout=60), seen.decode().replace("\r\n", "\n")
    finally:
        process.kill()


def lines_of(seen: str) -> List[str]:
    """The lines that a person sees, without colours and without what was drawn over."""
    return [ESCAPE.sub("", it).split("\r")[-1] for it in seen.split("\n")]
