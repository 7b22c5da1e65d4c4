"""Users: who there is, with which token, and what happens to the names of one who leaves."""
from __future__ import annotations

import argparse
import secrets
from dataclasses import dataclass
from typing import List, Optional, Sequence, Tuple

from indexctl.changes import Desk, Row
from indexctl.command_line import argument, command
from indexctl.commands.arguments import JSON_LINES, TOKEN_DIGEST, USER, USERS, YES
from indexctl.ends import REFUSED, UNREACHED, WRONG, Stop
from indexctl.interrupts import told_if_interrupted
from indexctl.names import DIGEST, check_users, sha256
from indexctl.standings import Standing, held_names
from indexctl.terminal import confirm, note, put


def digest_of(args: argparse.Namespace) -> Tuple[str, Optional[str]]:
    """The digest of a user's token, and the token if it was made here."""
    if args.digest:
        if not DIGEST.fullmatch(args.digest.lower()) or args.digest.lower() == sha256(""):
            raise Stop(WRONG, "--digest takes the 64 digits that `indexctl token digest` prints.")
        return args.digest.lower(), None
    token = secrets.token_hex(32)
    return sha256(token), token


def give_token(desk: Desk, what: str, row: Row, token: Optional[str]) -> None:
    """Asks for a change that makes a token known, and prints one that was made here, once, if it may be so now."""
    shown = f"{row['user']}'s token, which is shown this once: {token}"
    by_row: Row = {"token": token} if token else {}
    try:
        if desk.change(what, row, shown=by_row) and token and not desk.is_json:
            put(shown)
    except Stop as end:
        if token and end.status == UNREACHED:
            desk.say(f"If it was done: {shown}", {**row, "answer": "unknown", **by_row})
        raise
    except OSError:
        # as if what reads the output is gone, or the disk of its file is full
        if token:
            note(f"{row['user']}'s token could not be printed, and is lost: use `indexctl user rotate {row['user']}`.",
                 "red")
        raise


@command("user add", USERS,
         argument("--office", action="store_true", help="makes it a user of the office, for good"), TOKEN_DIGEST, YES,
         JSON_LINES)
def user_add(args: argparse.Namespace) -> int:
    """A user is never removed, and the office flag never changes. --digest is for one user, who has made the token."""
    check_users(*args.users)
    if args.digest and len(args.users) > 1:
        raise Stop(WRONG, "--digest is of one user's token. Add one user with it.")
    desk = Desk(args)
    if args.office:
        confirm(args, f"{', '.join(args.users)} will be of the office for good: nothing takes the flag back.")
    for user in args.users:
        digest, token = digest_of(args)
        row = {"do": "add_user", "user": user, "office": args.office, "token_sha256": digest}
        give_token(desk, f"user {user}: add", row, token)
    return desk.status()


@command("user rotate", USER, TOKEN_DIGEST, JSON_LINES)
def user_rotate(args: argparse.Namespace) -> int:
    """The old token ends at once. For a pipeline that must not stop, add a second user and let the two take turns."""
    check_users(args.user)
    desk = Desk(args)
    digest, token = digest_of(args)
    row = {"do": "set_token", "user": args.user, "token_sha256": digest}
    give_token(desk, f"user {args.user}: another token", row, token)
    if not desk.status():
        note(f"The token before has ended: what used it, such as a pipeline of {args.user}, needs this one.")
    return desk.status()


def check_not_own(desk: Desk, users: Sequence[str]) -> None:
    """Stops if one of the users is who asks: nobody could take back what ends the last token of the office."""
    for user in filter(desk.is_own, users):
        raise Stop(WRONG, f"You ask as {user}. Let another user of the office do this, or use `indexctl user rotate "
                          f"{user}` for another token. Nothing was done.")


@command("user lock", USERS, JSON_LINES)
def user_lock(args: argparse.Namespace) -> int:
    """The user stays, and owns what it owns. `user rotate` opens it again."""
    check_users(*args.users)
    desk = Desk(args)
    check_not_own(desk, args.users)
    for user in args.users:
        row = {"do": "set_token", "user": user, "token_sha256": sha256(secrets.token_hex(32))}
        desk.change(f"user {user}: lock", row)
    return desk.status()


@command("user leave", USER,
         argument("--to", metavar="HEIR", help="who owns the names from now on; needed if the user owns one alone"),
         YES, JSON_LINES)
def user_leave(args: argparse.Namespace) -> int:
    """Only an owner may change owners. So the office gives the user a token that this program alone knows, and acts as
    the user; nobody knows the token afterwards. An owner's act ends an open case of a name, so those end too. The cases
    that the user has opened are closed: a name must not pass to who has left."""
    check_users(args.user, *([args.to] if args.to else []))
    if args.to == args.user:
        raise Stop(WRONG, f"{args.user} leaves, and can't own the names from then on. Name another user by --to.")
    desk = Desk(args)
    for user in (args.user, args.to):
        if user and not desk.is_user(user):
            raise Stop(REFUSED, f"There is no user {user}. Is the id spelled right? Nothing was done.")
    check_not_own(desk, [args.user])
    leaving = find_leaving(desk, args.user)
    alone = [it.name for it in leaving.owned if len(it.owners) == 1]
    if alone and not args.to:
        raise Stop(WRONG, f"{args.user} is the only owner of {', '.join(alone)}. Name another user by --to. Nothing "
                          "was done.")
    names, cases = [it.name for it in leaving.owned], [it.name for it in leaving.owned if it.case]
    confirm(args, f"{args.user} will be locked, and taken off: {', '.join(names) or 'no name'}."
            + (f" The open cases of {', '.join(cases)} will end." if cases else "")
            + (f" The cases that {args.user} opened, of {', '.join(leaving.asked)}, will be closed."
               if leaving.asked else ""))
    with told_if_interrupted(lambda: f"{args.user} may own names still. Run it again, to the end."):
        lock_and_pass_on(desk, args.user, args.to)
    return desk.status()


@dataclass(frozen=True)
class Leaving:
    """The names that a user owns, and those on which the user has opened a case."""
    owned: List[Standing]
    asked: List[str]


def find_leaving(desk: Desk, user: str) -> Leaving:
    """What is the user's now, by a list that nobody has cached."""
    leaving = Leaving([], [])
    for found in held_names(desk.index, is_fresh=True):
        if user in found.owners:
            leaving.owned.append(found)
        if found.case and found.case.candidate == user:
            leaving.asked.append(found.name)
    return leaving


def lock_and_pass_on(desk: Desk, user: str, heir: Optional[str]) -> None:
    """Locks the user, and takes the user off each name. The names are listed after the lock: before it the user, and
    who has the user's token, may claim one more, or open a case."""
    token = secrets.token_hex(32)
    if desk.change(f"user {user}: lock", {"do": "set_token", "user": user, "token_sha256": sha256(token)}):
        leaving = find_leaving(desk, user)
        for found in leaving.owned:
            pass_on(desk, found, user, heir, token)
        for name in leaving.asked:
            desk.change(f"case of {name}: close", {"do": "close_case", "name": name})


def pass_on(desk: Desk, found: Standing, user: str, heir: Optional[str], token: str) -> None:
    """Puts the heir in the place of the user as an owner of this name, asking as the user."""
    name, more = found.name, {"for": user}
    if heir and heir not in found.owners:
        if not desk.change(f"{name}: add owner {heir}", {"do": "add_owner", "name": name, "user": heir}, token, more):
            return
    desk.change(f"{name}: remove owner {user}", {"do": "remove_owner", "name": name, "user": user}, token, more)
