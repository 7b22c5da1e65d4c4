"""What there is, for the office: the lists that only a backup has."""
from __future__ import annotations

import argparse
import json
from typing import Any, Sequence

from indexctl.backups import moment_of, opened
from indexctl.command_line import argument, command
from indexctl.commands.arguments import JSON
from indexctl.inventory import Inventory, inventory_of
from indexctl.terminal import Columns, as_json, listing, paint, put, texts
from indexctl.units import moment


def last_text(row: Any) -> str:
    return "never" if row.last_upload is None else moment(row.last_upload)


@command("inventory",
         argument("backup", metavar="BACKUP", help="a copy that index-backup made, such as index-20261124T031500Z.db"),
         JSON)
def inventory(args: argparse.Namespace) -> None:
    """It reads the file alone, and asks no index. A name is quiet if nothing was uploaded for a year before the backup.
    A backup has the digests of all tokens: leave it on the server, and run this there."""
    with opened(args.backup) as database:
        found = inventory_of(database, args.backup, moment_of(args.backup))
    if args.json:
        put(json.dumps(as_json(found), indent=1))
        return
    put(f"{args.backup}, of {moment(found.at)}")
    show_lists(args, found)


def show_lists(args: argparse.Namespace, found: Inventory) -> None:
    def part(title: str, rows: Sequence[Any], columns: Columns) -> None:
        put(f"\n{paint(f'{title}: {len(rows)}', 'bold')}")
        if rows:
            listing(args, rows, columns)
    part("Users", found.users, {**texts("user"), "office": lambda row: "office" if row.office else "",
                                **texts("names", "alone")})
    part("Prohibited names", [{"name": it} for it in found.prohibited], texts("name"))
    part("Banned files", found.banned, texts("file", "name"))
    part("Names without an upload for a year", found.quiet, {**texts("name", "owners"), "latest": last_text})
    part("Names with one owner", found.sole, texts("name", "owner"))
