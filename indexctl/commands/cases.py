"""Retention cases."""
from __future__ import annotations

import argparse
import time

from indexctl.cases import MEANS, CaseRow, lacks_text, ready_text
from indexctl.changes import Desk
from indexctl.command_line import argument, command
from indexctl.commands.arguments import JSON, JSON_LINES, NAME, NAMES, YES
from indexctl.commands.listings import held
from indexctl.commands.names import change_name, each_name
from indexctl.ends import REFUSED, WRONG, Stop
from indexctl.names import check_names, check_texts
from indexctl.probe import open_cases
from indexctl.standings import held_names
from indexctl.terminal import Columns, confirm, listing, note, show, texts
from indexctl.units import moment
from indexctl.uploads import MOST_TEXT


def means_text(row: CaseRow) -> str:
    return ", ".join(means for means in MEANS if row.has(means)) or "nothing"


CASE_COLUMNS: Columns = {
    **texts("name", "kind", "candidate", "owners"), "opened": lambda row: moment(row.opened),
    "attempts": lambda row: f"{row.sent} of {row.attempts} sent", "by": means_text, "ready": ready_text,
    "lacks": lacks_text, "tried": lambda row: str(row.contact), **texts("work", "why")}


@command("case list", JSON)
def case_list(args: argparse.Namespace) -> None:
    """With a token of the office it also says whether a year has passed since the latest upload, which no answer shows.
    It asks for a transfer that states that the home page is not quiet; such a transfer is always refused."""
    desk = Desk(args)
    rows, is_office = open_cases(desk, held_names(desk.index), int(time.time()))
    listing(args, rows, {**texts("name", "candidate", "owners"), "sent": lambda row: f"{row.sent} of {row.attempts}",
                         "ready": ready_text, "lacks": lacks_text})
    if rows and not is_office:
        note("The year since the latest upload was not looked at: that takes a token of the office.")


@command("case show", NAME, JSON)
def case_show(args: argparse.Namespace) -> None:
    desk, now = Desk(args), int(time.time())
    found = held(desk.index, args.name)
    if not found.case:
        raise Stop(REFUSED, f"No case is open on {args.name}. It belongs to {', '.join(found.owners)}.")
    rows, _ = open_cases(desk, [found], now)
    if not rows:
        raise Stop(REFUSED, f"The case of {args.name} has ended just now.")
    show(args, rows[0], {head: text(rows[0]) for head, text in CASE_COLUMNS.items()})


@command("case open", NAME,
         argument("--kind", required=True, choices=("continue", "reuse"),
              help="continue the project, or reuse the name for another"),
         argument("--contact", required=True, metavar="TEXT", help="how you tried to reach the owner"),
         argument("--work", required=True, metavar="TEXT",
                  help="what your fork improves, or which project needs the name"),
         argument("--why", required=True, metavar="TEXT", help="why another name won't do"), JSON_LINES)
def case_open(args: argparse.Namespace) -> int:
    check_names(args.name)
    check_texts(args.contact, args.work, args.why)
    for text in (args.contact, args.work, args.why):
        size = len(text.encode())
        if not 1 <= size <= MOST_TEXT:
            raise Stop(WRONG, f"A text of a case has 1 to {MOST_TEXT} bytes, and {text[:60]!r} has {size}.")
    return change_name(args, f"case of {args.name}: open", do="open_case", kind=args.kind, contact=args.contact,
                       work=args.work, why=args.why)


@command("case attempt", NAMES,
         argument("means", metavar="MEANS", choices=MEANS, help="profile, author or pages"),
         argument("--not-sent", action="store_true", help="the owner has left no address of this kind"), JSON_LINES)
def case_attempt(args: argparse.Namespace) -> int:
    """Each counts from now on, and the same again is a second attempt. It is sent to the index once."""
    what = f"case of {{}}: attempt by {args.means}{', not sent' if args.not_sent else ''}"
    return each_name(args, "record_attempt", what, means=args.means, sent=not args.not_sent)


@command("case answer", NAMES, JSON_LINES)
def case_answer(args: argparse.Namespace) -> int:
    return each_name(args, "answer_case", "case of {}: answer")


@command("case close", NAMES, JSON_LINES)
def case_close(args: argparse.Namespace) -> int:
    return each_name(args, "close_case", "case of {}: close")


@command("case transfer", NAMES,
         argument("--quiet", action="store_true", required=True,
              help="you looked: the home page of each owner shows no activity, or none is listed"), YES, JSON_LINES)
def case_transfer(args: argparse.Namespace) -> int:
    """The owners lose the names, which nothing gives back to them. --quiet is your statement, and has to be true."""
    desk = Desk(args)
    found = [held(desk.index, name) for name in args.names]
    passes = [f"{it.name} passes from {', '.join(it.owners)} to {it.case.candidate}, for good."
              for it in found if it.case]
    if passes:
        confirm(args, " ".join(passes))
    for name in args.names:
        desk.change(f"case of {name}: transfer", {"do": "transfer", "name": name, "quiet": True})
    return desk.status()
