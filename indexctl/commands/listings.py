"""Quotas, and who owns which names."""
from __future__ import annotations

import argparse
from dataclasses import dataclass
from typing import Any, Iterable, List, Optional

from indexctl.changes import Desk
from indexctl.command_line import argument, command
from indexctl.commands.arguments import JSON, JSON_LINES, NAMES, USER
from indexctl.ends import REFUSED, Stop
from indexctl.names import check_names, check_users
from indexctl.near import did_you_mean, not_held
from indexctl.quotas import quota_row, quota_rows
from indexctl.standings import Standing, find_standing, held_names, listed_names, standings_of
from indexctl.terminal import Columns, listing, note, texts
from indexctl.transport import Index
from indexctl.units import counted, human, size_of
from package_index.names import normal


@dataclass(frozen=True)
class NameRow:
    """A held name, and whether a case is open on it."""
    name: str
    owners: List[str]
    charge: int
    case: bool


@dataclass(frozen=True)
class OwnedRow:
    """A name of one owner, whether nobody else owns it, and who has opened a case on it."""
    name: str
    alone: bool
    owners: List[str]
    charge: int
    case: Optional[str]


def charge_text(row: Any) -> str:
    return human(row.charge)


def held(index: Index, name: str) -> Standing:
    """The standing of a name that has to be held."""
    check_names(name)
    found = find_standing(index, name)
    if found.state == "free":
        raise Stop(REFUSED, not_held(index, name))
    if found.state != "held":
        raise Stop(REFUSED, f"{name} is {found.state}, and has no owner, quota or case.")
    return found


@command("quota set", NAMES,
         argument("size", metavar="SIZE", help="5GiB, 700MB or a number of bytes; +1GiB adds to what the name has"),
         JSON_LINES)
def quota_set(args: argparse.Namespace) -> int:
    # a slip in the size is told before the index is asked for what the name has
    size_of(args.size)
    desk = Desk(args)
    # a slip in a name is found before the first quota changes
    for found in [held(desk.index, it) for it in args.names]:
        wanted = size_of(args.size, found.quota)
        desk.change(f"quota of {found.name}: {human(found.quota)} becomes {human(wanted)} ({counted(wanted, 'byte')})",
                    {"do": "set_quota", "name": found.name, "quota": wanted})
    return desk.status()


QUOTA_COLUMNS: Columns = {**texts("name"), "full": lambda row: f"{row.full:.1f} %", "charge": charge_text,
                          "quota": lambda row: human(row.quota), **texts("owners")}


@command("quota show", NAMES, JSON)
def quota_show(args: argparse.Namespace) -> None:
    index = Desk(args).index
    listing(args, [quota_row(held(index, name)) for name in args.names], QUOTA_COLUMNS)


@command("quotas",
         argument("--above", type=float, default=0.0, metavar="PERCENT",
                  help="only those that are at least so full"), JSON)
def quotas(args: argparse.Namespace) -> None:
    listing(args, quota_rows(held_names(Desk(args).index), args.above), QUOTA_COLUMNS)


def list_names(args: argparse.Namespace, found: Iterable[Standing]) -> None:
    rows = [NameRow(it.shown, it.owners, it.charge, bool(it.case)) for it in found]
    listing(args, rows, {**texts("name", "owners"), "charge": charge_text,
                         "case": lambda row: "open" if row.case else ""})


@command("names", JSON)
def names(args: argparse.Namespace) -> None:
    list_names(args, held_names(Desk(args).index))


@command("search",
         argument("words", nargs="+", metavar="WORD", help="a part of a name, in any spelling"), JSON)
def search(args: argparse.Namespace) -> None:
    """It looks at names alone. If your index has pages for everybody, a browser also finds summaries there."""
    index = Desk(args).index
    known = listed_names(index)
    words = [normal(it).strip("-") for it in args.words]
    found = [it for it in known if all(word in normal(it) for word in words)]
    if not found:
        note(f"No name has that.{did_you_mean('-'.join(words), known)}")
    list_names(args, standings_of(index, found))


@command("who", NAMES, JSON)
def who(args: argparse.Namespace) -> None:
    check_names(*args.names)
    index = Desk(args).index
    rows = [find_standing(index, name) for name in args.names]

    def quota_text(row: Standing) -> str:
        return f"{human(row.charge)} of {human(row.quota)}" if row.state == "held" else ""
    listing(args, rows, {**texts("name", "state", "owners"), "quota": quota_text,
                         "case": lambda row: f"of {row.case.candidate}" if row.case else ""}, lambda row: row.given)


@command("owned-by", USER, JSON)
def owned_by(args: argparse.Namespace) -> None:
    check_users(args.user)
    found = [it for it in held_names(Desk(args).index) if args.user in it.owners]
    rows = [OwnedRow(it.name, len(it.owners) == 1, it.owners, it.charge,
                     it.case.candidate if it.case else None) for it in found]
    listing(args, rows, {**texts("name", "owners"), "alone": lambda row: "alone" if row.alone else "",
                         "charge": charge_text, "case": lambda row: f"of {row.case}" if row.case else ""})
