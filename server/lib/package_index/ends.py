"""How a program of server/bin ends: with a reason on standard error, or of a signal once it has tidied up."""
from __future__ import annotations

import os
import signal
import sys
from contextlib import contextmanager
from types import FrameType
from typing import Callable, Iterator, List, Optional

SIGNALS = signal.SIGHUP, signal.SIGINT, signal.SIGTERM


class Refused(Exception):
    """Why a program goes no further: the line that it prints."""


class Interrupted(BaseException):
    """A signal came that ends the program. What stands in `finally` is still done, and no other signal ends that."""

    def __init__(self, number: int) -> None:
        super().__init__(number)
        self.number = number


def ignore_signals() -> None:
    """From here on none interrupts the program or what it runs, also none that is held."""
    for each in SIGNALS:
        signal.signal(each, signal.SIG_IGN)


def interrupt(number: int, _: Optional[FrameType]) -> None:
    ignore_signals()
    raise Interrupted(number)


@contextmanager
def held() -> Iterator[None]:
    """A signal that comes meanwhile interrupts the program only afterwards. Commands that are run don't see it."""
    before = signal.pthread_sigmask(signal.SIG_BLOCK, SIGNALS)
    try:
        yield
    finally:
        signal.pthread_sigmask(signal.SIG_SETMASK, before)


@contextmanager
def let_in() -> Iterator[None]:
    """A part of what is done while signals are held, in which they interrupt at once."""
    try:
        signal.pthread_sigmask(signal.SIG_UNBLOCK, SIGNALS)
        yield
    finally:
        signal.pthread_sigmask(signal.SIG_BLOCK, SIGNALS)


def words_of(usage: str, least: int, most: int) -> List[str]:
    """The words of a command line without options, so many. Prints `usage` and ends if they are others."""
    words = sys.argv[1:]
    if not least <= len(words) <= most or words and words[0].startswith("-"):
        print(usage)
        sys.exit(0 if words in (["-h"], ["--help"]) else 2)
    return words


def tell(text: str) -> None:
    """Prints. If nobody reads any more, as when the terminal was closed, or the disk is full, what is left is done all
    the same."""
    try:
        print(text, end="", flush=True)
    except OSError:
        sys.stdout = open(os.devnull, "w")


def say(name: str, text: object) -> None:
    """A line of a program on standard error. If that can't be written, as on a full disk, its status tells."""
    try:
        print(f"{name}: {text}", file=sys.stderr, flush=True)
    except OSError:
        sys.stderr = open(os.devnull, "w")


def status_of(name: str, main: Callable[[], int]) -> int:
    """Runs a program, and gives its status: that of `main`, or 1 if it refused or the system did. If a signal
    interrupts it, it tidies up and then dies of that signal, so that a shell or systemd sees what it did."""
    for number in SIGNALS:
        # one that is ignored, as nohup ignores SIGHUP, stays so
        if signal.getsignal(number) is not signal.SIG_IGN:
            signal.signal(number, interrupt)
    try:
        status = main()
        sys.stdout.flush()
        return status
    except (Refused, OSError) as end:
        say(name, end)
        # what can't be printed is not tried again at the end of Python
        tell("")
        return 1
    except Interrupted as end:
        say(name, "stopped")
        signal.signal(end.number, signal.SIG_DFL)
        os.kill(os.getpid(), end.number)
        return 128 + end.number
