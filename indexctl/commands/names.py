"""Names and their owners."""
from __future__ import annotations

import argparse
import shlex
from typing import List, Sequence

from indexctl.changes import Desk
from indexctl.command_line import command
from indexctl.commands.arguments import JSON_LINES, NAME, NAMES, USER, YES
from indexctl.contents import find_contents
from indexctl.names import check_names, check_users
from indexctl.served import tell_served
from indexctl.standings import find_standing
from indexctl.terminal import confirm, confirm_on_terminal, note
from indexctl.transport import Index
from indexctl.units import counted
from package_index.names import normal


def each_name(args: argparse.Namespace, do: str, what: str, **row: object) -> int:
    """The same change for each of the names. `what` is what it is called, with a place for the name."""
    check_names(*args.names)
    desk = Desk(args)
    for name in args.names:
        desk.change(what.format(name), {"do": do, "name": name, **row})
    return desk.status()


def change_name(args: argparse.Namespace, what: str, do: str, **row: object) -> int:
    """One change of the name that the command line has."""
    check_names(args.name)
    desk = Desk(args)
    desk.change(what, {"do": do, "name": args.name, **row})
    return desk.status()


def tell_uncache(desk: Desk, project: str, files: Sequence[str]) -> None:
    """Prints the commands that take these files out of what nginx has cached, for a shell: it has a meaning of its own
    for the `!` that a version may have."""
    if files:
        note("On the server, take out of nginx what it has cached:")
    for file in files:
        run = f"index-uncache {project} {shlex.quote(file)}"
        desk.say(run, {"do": "uncache", "name": project, "file": file, "run": run})


@command("name claim", NAMES, JSON_LINES)
def name_claim(args: argparse.Namespace) -> int:
    return each_name(args, "claim", "claim {}")


@command("name relinquish", NAME, YES, JSON_LINES)
def name_relinquish(args: argparse.Namespace) -> int:
    check_names(args.name)
    desk = Desk(args)
    confirm(args, f"Anybody may claim {args.name} from then on.")
    desk.change(f"relinquish {args.name}", {"do": "relinquish", "name": args.name})
    return desk.status()


@command("name prohibit", NAMES, YES, JSON_LINES)
def name_prohibit(args: argparse.Namespace) -> int:
    """The files, owners, yanks and the case of each name go. What nginx has cached still goes out: run the
    index-uncache lines that are printed, on the server. At its end it says of which files that is so."""
    check_names(*args.names)
    desk = Desk(args)
    found = {name: (find_standing(desk.index, name), find_contents(desk.index, name, is_fresh=True) or [])
             for name in args.names}
    there = [f"{name}: {counted(len(files), 'file')} of {', '.join(at.owners)}"
             for name, (at, files) in found.items() if at.state == "held"]
    if there:
        confirm(args, f"This deletes files and takes names from their owners: {'; '.join(there)}.")
    gone: List[str] = []
    for name, (_, files) in found.items():
        if desk.change(f"prohibit {name}", {"do": "prohibit", "name": name}):
            gone += [it.file for it in files]
            tell_uncache(desk, normal(name), [it.file for it in files])
    tell_served(desk, gone)
    return desk.status()


@command("name allow", NAMES, JSON_LINES)
def name_allow(args: argparse.Namespace) -> int:
    return each_name(args, "allow", "allow {}")


@command("owner add", USER, NAMES, JSON_LINES)
def owner_add(args: argparse.Namespace) -> int:
    """An owner may do everything with a name, also remove you. Give each pipeline a user of its own."""
    check_users(args.user)
    return each_name(args, "add_owner", f"{{}}: add owner {args.user}", user=args.user)


@command("owner remove", USER, NAMES, YES, JSON_LINES)
def owner_remove(args: argparse.Namespace) -> int:
    """On a terminal it shows who stays, and asks: only another owner can take you back."""
    check_users(args.user)
    check_names(*args.names)
    index = Desk(args).index
    confirm_on_terminal(args, " ".join(tell_owners(index, args.user, name) for name in args.names))
    return each_name(args, "remove_owner", f"{{}}: remove owner {args.user}", user=args.user)


def tell_owners(index: Index, user: str, name: str) -> str:
    """Who owns a name once this user does no more."""
    others = [it for it in find_standing(index, name).owners if it != user]
    return f"{name} will be owned by {', '.join(others) or 'nobody else'}, and no longer by {user}."
