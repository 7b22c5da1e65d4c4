"""Who changed what, and when."""
from __future__ import annotations

import argparse
import json
from typing import Callable, List

from indexctl.command_line import argument, command
from indexctl.ends import WRONG, Stop
from indexctl.history import MADE, REFUSED, Change, changes_in
from indexctl.names import check_names, check_users, file_named
from indexctl.terminal import as_json, note, printable, put
from indexctl.units import iso, read_moment
from package_index.log_place import log_of_changes, rotated
from package_index.names import normal

Test = Callable[[Change], bool]


def who_text(change: Change) -> str:
    """The caller in words."""
    return " or ".join(change.who) or (f"caller {change.caller}" if change.caller else "-")


def text_of(change: Change) -> str:
    """A change on one line. A hyphen stands for what it lacks."""
    more = [f"{key} {value}" for key, value in change.more.items()]
    became = [] if change.became == MADE else [f"({change.became}: {change.status})"]
    cells = (change.at, f"{who_text(change):15}", f"{change.address or '-':15}", f"{change.do or '-':14}",
             change.name or "-", change.file or "-", *more, *became)
    return "  ".join(map(printable, cells))


def tests_of(args: argparse.Namespace) -> List[Test]:
    """What a change has to be so that it is shown. Stops at a value that no change has."""
    tests: List[Test] = [] if args.refused else [lambda it: it.became != REFUSED]
    if args.name:
        check_names(args.name)
        tests.append(lambda it: it.name == normal(args.name))
    if args.file:
        tests.append(lambda it: it.file == file_named(args.file))
    if args.user:
        # the digits of a caller have the form of a user's id
        check_users(args.user)
        tests.append(lambda it: args.user in it.who or args.user == it.caller)
    # moments of one form sort as their texts do
    if args.since:
        since = iso(read_moment(args.since))
        tests.append(lambda it: it.at >= since)
    if args.until:
        until = iso(read_moment(args.until))
        tests.append(lambda it: it.at < until)
    return tests


def logs_here() -> List[str]:
    """The log of this machine's nginx, and what was rotated away of it."""
    log = log_of_changes()
    found = rotated(log)
    if not found:
        raise Stop(WRONG, f"There is no {log} that you may read. Name the logs, or run this on the machine of nginx "
                          "as root or as a user of the group adm.")
    return found


@command("history",
         argument("logs", nargs="*", metavar="LOG",
                  help="logs, also rotated ones, or a record; those of this machine's nginx if you name none"),
         argument("--users", action="append", default=[], metavar="BACKUP",
                  help="a backup, which knows users by their tokens; an older one too for tokens of before"),
         argument("--name", metavar="NAME", help="only what was done with this project"),
         argument("--file", metavar="FILE", help="only what was done with this file"),
         argument("--user", metavar="USER", help="only what this user did, or the caller of these digits"),
         argument("--since", metavar="MOMENT", help="only from then on, such as 2026-11-24T03:15:00Z"),
         argument("--until", metavar="MOMENT", help="only before then"),
         argument("--refused", action="store_true", help="also what was refused"),
         argument("--json", action="store_true", help="prints a line of JSON for each change"))
def history(args: argparse.Namespace) -> None:
    """It reads files alone, and asks no index: run it where the logs are. A log names a caller by the first digits of
    the digest of its token. Whose token that was is known from a backup, or from the line of the log that gave it to
    the user; else the digits are shown. A change that nginx had no answer to is shown as unknown: it may have been
    made."""
    tests, is_empty = tests_of(args), True
    for change in changes_in(args.logs or logs_here(), args.users):
        if all(it(change) for it in tests):
            is_empty = False
            put(json.dumps(as_json(change)) if args.json else text_of(change))
    if is_empty and not args.json:
        note("none")
