"""A run: it reads the command line, does what it says, and ends with a status and a sentence."""
from __future__ import annotations

import io
import os
import sys

from indexctl.command_line import parsed
from indexctl.ends import INTERRUPTED, PIPE_CLOSED, WRONG, Stop
from indexctl.terminal import drop, note, put


def main() -> int:
    for name, mode in (("stdin", "r"), ("stderr", "w")):
        if getattr(sys, name) is None:
            # it was closed, as by `<&-`
            setattr(sys, name, open(os.devnull, mode, encoding="utf-8"))
    if sys.stdout is None:
        note("indexctl: Standard output is closed, so nothing was asked for. It may go to /dev/null.", "red")
        return WRONG
    for stream in (sys.stdout, sys.stderr):
        if isinstance(stream, io.TextIOWrapper):
            stream.reconfigure(errors="backslashreplace")
    try:
        try:
            args = parsed(sys.argv[1:])
            return int(args.function(args) or 0)
        except Stop as end:
            note(f"indexctl: {end}", "red")
            return end.status
        except KeyboardInterrupt:
            note("indexctl: interrupted")
            return INTERRUPTED
        finally:
            # argparse prints help by itself
            put("", end="")
    except OSError as end:
        drop(sys.stdout)
        if isinstance(end, BrokenPipeError):
            return PIPE_CLOSED
        note(f"indexctl: {end}", "red")
        return WRONG
