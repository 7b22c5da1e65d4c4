"""What the commands of tools/ and bench/ share: their options, and a count of what passed and failed."""
from __future__ import annotations

import argparse
import io
import os
import signal
import sys
from typing import Callable

from top import PROGRAM


def parser_of(text: str, has_program: bool = True) -> argparse.ArgumentParser:
    """The options of a command, of which `text` says what it does. What its locale lacks is printed as an escape."""
    if isinstance(sys.stdout, io.TextIOWrapper):
        sys.stdout.reconfigure(errors="backslashreplace")
    parser = argparse.ArgumentParser(description=text, formatter_class=argparse.RawDescriptionHelpFormatter)
    if has_program:
        parser.add_argument("--program", metavar="PATH", type=absolute, default=PROGRAM,
                            help="the built program; crates/index/out/index if left out")
    return parser


def absolute(path: str) -> str:
    return os.path.abspath(path)


def whole_number(word: str) -> int:
    """A word of the command line that is a number above 0."""
    if not word.isascii() or not word.isdigit() or int(word) == 0:
        raise argparse.ArgumentTypeError("a number above 0 is wanted")
    return int(word)


class Trial:
    """Counts checks, and prints those that failed."""

    def __init__(self) -> None:
        self.passed, self.failed = 0, 0

    def check(self, name: str, is_well: object, seen: object = None) -> bool:
        """Counts one check, prints what was seen if it failed, and returns whether it passed."""
        if is_well:
            self.passed += 1
            return True
        self.failed += 1
        print(f"FAILED {name}: {str(seen)[:3000]}", flush=True)
        return False

    def run(self, body: Callable[[], object]) -> None:
        """Runs a command to its end, prints the sum as the last line, and exits: with status 1 if a check failed, or if
        none was made. An exception is one failure; folders and servers are left by their blocks."""
        signal.signal(signal.SIGTERM, lambda *_: sys.exit(1))
        try:
            body()
        except (Exception, SystemExit) as end:
            self.check("the run goes to its end", False, repr(end))
        print(f"{self.passed} passed, {self.failed} failed")
        sys.exit(1 if self.failed or not self.passed else 0)
