"""What is printed: lines, tables, colours, progress, and a question before what can't be taken back."""
from __future__ import annotations

import argparse
import json
import os
import shutil
import sys
import textwrap
import threading
import time
from contextlib import suppress
from typing import Any, Callable, ClassVar, Dict, Iterable, Iterator, Mapping, Optional, Sequence, TextIO

from indexctl.ends import WRONG, Stop
from package_index.shown import MIB, clock, how_far, in_journal, is_watched

Columns = Dict[str, Callable[[Any], str]]
COLOURS = {"bold": "1", "dim": "2", "red": "31", "yellow": "33"}
SECONDS_BETWEEN_DRAWINGS = 0.1


def paint(text: str, colour: Optional[str], stream: Optional[TextIO] = None) -> str:
    """The text in this colour if the stream is a terminal, else as it is."""
    stream = stream or sys.stdout
    is_plain = not stream.isatty() or os.environ.get("NO_COLOR") or os.environ.get("TERM") == "dumb"
    return text if is_plain or not colour else f"\033[{COLOURS[colour]}m{text}\033[0m"


def printable(value: object) -> str:
    """The text of a value, without characters that move the cursor or turn the direction of writing."""
    text = str(value)
    # nearly each text is
    return text if text.isprintable() else "".join(it if it.isprintable() else f"\\u{ord(it):04x}" for it in text)


class Progress:
    """How far a walk has come, on one line of a terminal. In the journal stand its begin and its end, and elsewhere
    nothing."""

    drawn: ClassVar[Optional[Progress]] = None
    lock: ClassVar[threading.Lock] = threading.Lock()

    def __init__(self, what: str, total: int, is_bytes: bool = False) -> None:
        self.what, self.total, self.done, self.last, self.is_bytes = what, total, 0, 0.0, is_bytes
        self.begun = time.monotonic()
        self.is_watched = is_watched()
        # of a file that goes out a line is printed when it is there
        self.is_told = not self.is_watched and not is_bytes and in_journal()

    def __enter__(self) -> Progress:
        if self.is_told:
            note(f"{self.what}: {self.total}, begun")
        return self

    def __exit__(self, *_: object) -> None:
        self.clear()
        if self.is_told:
            note(f"{self.what}: {self.done} of {self.total}, ended after {clock(time.monotonic() - self.begun)}")

    def step(self, count: int = 1) -> None:
        self.done += count
        now = time.monotonic()
        if now - self.last >= SECONDS_BETWEEN_DRAWINGS:
            self.last = now
            self.draw(how_far(self.what, self.done, self.total, now - self.begun, self.is_bytes))

    def draw(self, text: str) -> None:
        if self.is_watched:
            with Progress.lock:
                text = text[:shutil.get_terminal_size().columns - 1]
                print(f"\r{text}\033[K", end="", file=sys.stderr, flush=True)
                Progress.drawn = self

    def sent(self, pieces: Iterable[bytes]) -> Iterator[bytes]:
        """The pieces of a body, each counted once it went out. The line then stays until the index has answered, which
        it does once it has them all on its disk."""
        self.done, self.begun = 0, time.monotonic()
        for piece in pieces:
            yield piece
            self.step(len(piece))
        self.draw(f"{self.what}: {self.total / MIB:.1f} MiB sent, waiting for the index")

    @staticmethod
    def clear() -> None:
        with Progress.lock:
            if Progress.drawn:
                print("\r\033[K", end="", file=sys.stderr, flush=True)
            Progress.drawn = None


def put(text: str, end: str = "\n") -> None:
    """Prints on standard output, as all that goes there. If it can't, the error names what it is of."""
    try:
        print(text, end=end, flush=True)
    except OSError as why:
        raise OSError(why.errno, why.strerror, "standard output") from why


def say(text: str, colour: Optional[str] = None, printed: Optional[str] = None) -> None:
    """Prints a line of what was done, or in its place what is printed of it for a program. If that can't go out, the
    line goes to standard error."""
    Progress.clear()
    try:
        put(paint(printable(text), colour) if printed is None else printed)
    except OSError:
        note(text)
        raise


def say_row(is_json: bool, sentence: str, row: Optional[Mapping[str, object]] = None) -> None:
    """Prints a line of what was done: the sentence, or with --json this row as a line of JSON. A sum, which has no row,
    goes to standard error then: who reads the rows can count them."""
    if not is_json:
        say(sentence)
    elif row is None:
        note(sentence)
    else:
        say(sentence, printed=json.dumps(row))


def note(text: str, colour: Optional[str] = None) -> None:
    """Prints a line on standard error. If nobody reads that any more, the run goes on."""
    try:
        Progress.clear()
        print(paint(printable(text), colour, sys.stderr), file=sys.stderr, flush=True)
    except OSError:
        drop(sys.stderr)


def drop(stream: TextIO) -> None:
    """Has what can't be printed go nowhere: the interpreter would try it again as it ends, and complain."""
    with suppress(OSError), open(os.devnull, "wb") as nowhere:
        os.dup2(nowhere.fileno(), stream.fileno())


def confirm(args: argparse.Namespace, sentence: str) -> None:
    """Asks before something that can't be taken back, unless --yes was given. Stops if the answer is not `yes`."""
    if args.yes:
        return
    if not sys.stdin.isatty():
        raise Stop(WRONG, f"{sentence} Nothing was done. If you mean it, repeat the command with --yes.")
    note(sentence, "yellow")
    try:
        answer = input("Type `yes` to go on: ")
    except EOFError:
        answer = ""
    if answer.strip() != "yes":
        raise Stop(WRONG, "Nothing was done.")


def confirm_on_terminal(args: argparse.Namespace, sentence: str) -> None:
    """Asks a person alone: a script, which has no terminal, goes on as if it had said --yes."""
    if sys.stdin.isatty():
        confirm(args, sentence)


def texts(*heads: str) -> Columns:
    """Columns whose cells are the texts of the fields, or of the keys, of these names; a list is joined by commas."""
    def text_of(head: str) -> Callable[[Any], str]:
        def text(row: Any) -> str:
            found = row.get(head, "") if isinstance(row, dict) else getattr(row, head)
            return ", ".join(found) if isinstance(found, list) else str(found)
        return text
    return {head: text_of(head) for head in heads}


def as_json(row: Any) -> object:
    # (it takes as long to load as all else here)
    import dataclasses
    return dataclasses.asdict(row) if dataclasses.is_dataclass(row) else row


def listing(args: argparse.Namespace, rows: Sequence[Any], columns: Columns,
            json_of: Callable[[Any], object] = as_json) -> None:
    """Prints rows as JSON if --json was given, else as a table of these columns: each a head and what gives a cell."""
    if args.json:
        put(json.dumps([json_of(row) for row in rows], indent=1))
        return
    cells = [[printable(text(row)) for text in columns.values()] for row in rows]
    if not cells:
        note("none")
        return
    lines = [list(columns), *cells]
    widths = [max(len(line[at]) for line in lines) for at in range(len(columns))]
    most = shutil.get_terminal_size().columns
    if sys.stdout.isatty() and sum(widths) + 2 * (len(widths) - 1) > most:
        for line in cells:
            print_block(dict(zip(columns, line)), most)
        return
    head, *others = ("  ".join(cell.ljust(width) for cell, width in zip(line, widths)).rstrip() for line in lines)
    put("\n".join((paint(head, "bold"), *others)))


def show(args: argparse.Namespace, row: Any, found: Mapping[str, str]) -> None:
    """Prints one row as JSON if --json was given, else these texts of it below each other."""
    if args.json:
        put(json.dumps(as_json(row), indent=1))
    else:
        print_block({head: printable(text) for head, text in found.items()}, shutil.get_terminal_size().columns)


def print_block(pairs: Mapping[str, str], most: int) -> None:
    """Prints the cells of one row below each other, for a terminal that is too narrow for a table; those without a text
    are left out. A word that is too long for a line, such as a digest, is left to the terminal, so that it can be
    copied."""
    wide, printed = max(map(len, pairs)) + 2, []
    for at, (head, text) in enumerate(pairs.items()):
        lines = textwrap.wrap(text, max(20, most - wide - 1), break_long_words=False, break_on_hyphens=False)
        for number, line in enumerate(lines):
            front = f"{head if not number else '':{wide}}"
            printed.append(f"{paint(front, 'dim')}{line if at else paint(line, 'bold')}".rstrip())
    put("".join(f"{line}\n" for line in printed))
