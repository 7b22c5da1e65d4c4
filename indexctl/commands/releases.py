"""Releases: their yanks, and the room that old ones take."""
from __future__ import annotations

import argparse
import datetime
import unicodedata
from typing import Dict, List, Optional, Sequence, Tuple

from indexctl.changes import Desk
from indexctl.command_line import argument, command
from indexctl.commands.arguments import JSON_LINES, NAME_OF_RELEASES, RELEASES, YES
from indexctl.commands.contents import contents_of
from indexctl.commands.names import tell_uncache
from indexctl.contents import FileRow, ReleaseRow, find_contents, releases_of
from indexctl.ends import REFUSED, WRONG, Stop
from indexctl.interrupts import told_if_interrupted
from indexctl.names import check_names, check_texts, is_noncharacter, project_of
from indexctl.near import did_you_mean, not_held
from indexctl.room import day_of, older_than, releases_over
from indexctl.terminal import confirm, confirm_on_terminal, note
from indexctl.transport import Index
from indexctl.units import counted, human
from indexctl.uploads import MOST_TEXT

Pair = Tuple[str, str]


def releases_meant(args: argparse.Namespace) -> List[Pair]:
    """The names and releases of a command line: releases of one name, or NAME==RELEASE of each."""
    if "==" in args.name:
        pairs = [(name.strip(), release.strip()) for name, _, release in
                 (it.partition("==") for it in (args.name, *args.releases))]
    else:
        pairs = [(args.name, release) for release in args.releases]
    if not pairs or not all(release and "=" not in release for _, release in pairs):
        raise Stop(WRONG, "Name a release: `frob 1.0`, `frob 1.0 1.1`, or `frob==1.0 spam==2.0`.")
    check_names(*(name for name, _ in pairs))
    return pairs


@command("release yank", NAME_OF_RELEASES, RELEASES,
         argument("--reason", default="", metavar="TEXT", help="what a person who installs it should know"), YES,
         JSON_LINES)
def release_yank(args: argparse.Namespace) -> int:
    """On a terminal it shows the files of the releases first, and asks."""
    pairs = releases_meant(args)
    check_reason(args.reason)
    desk = Desk(args)
    confirm_on_terminal(args, tell_releases(desk.index, pairs))
    for name, release in pairs:
        desk.change(f"yank {name} {release}", {"do": "yank", "name": name, "release": release, "reason": args.reason})
    return desk.status()


@command("release unyank", NAME_OF_RELEASES, RELEASES, JSON_LINES)
def release_unyank(args: argparse.Namespace) -> int:
    pairs, desk = releases_meant(args), Desk(args)
    for name, release in pairs:
        desk.change(f"unyank {name} {release}", {"do": "unyank", "name": name, "release": release})
    return desk.status()


def check_reason(text: str) -> None:
    """Stops unless the index takes this reason: a refusal would not say which of its rules it is."""
    check_texts(text)
    size = len(text.encode())
    if size > MOST_TEXT:
        raise Stop(WRONG, f"A reason has {MOST_TEXT} bytes at most, and this one has {size}.")
    if any(unicodedata.category(it) == "Cc" for it in text):
        raise Stop(WRONG, "A reason is one line, without tabs and other control characters.")
    if any(map(is_noncharacter, text)):
        raise Stop(WRONG, "A reason has no noncharacter of Unicode, such as U+FFFE: a page with one is not valid HTML.")


def tell_releases(index: Index, pairs: Sequence[Pair]) -> str:
    """The files of releases that are about to be yanked, and what was perhaps meant by a slip."""
    found = {name: find_contents(index, name, is_fresh=True) for name in dict(pairs)}
    return " ".join(tell_release(index, name, release, found[name]) for name, release in pairs)


def tell_release(index: Index, name: str, release: str, files: Optional[Sequence[FileRow]]) -> str:
    if files is None:
        return not_held(index, name)
    its = [it.file for it in files if it.release == release.lower()]
    if not its:
        return no_release(name, release, files)
    return f"Release {release} of {name} will be yanked: {', '.join(its)}."


def no_release(name: str, release: str, files: Sequence[FileRow]) -> str:
    known = [it.release for it in releases_of(name, files)]
    return f"{name} has no release {release}.{did_you_mean(release, known)}"


@command("release delete", NAME_OF_RELEASES,
         RELEASES,
         argument("--keep", type=int, metavar="N", help="in place of RELEASE: all but the newest N by PEP 440"),
         argument("--matching", metavar="GLOB", help="with --keep: counts and deletes only versions like this, such as "
                  "'*.dev*'"),
         argument("--older-than", type=int, metavar="DAYS", help="with --keep: deletes only versions whose dev, post "
                  "or pre number is a date of more than so many days ago, such as 1.0.dev20261130"), YES, JSON_LINES)
def release_delete(args: argparse.Namespace) -> int:
    """It shows the releases first, and asks. Their files stay bound to their bytes, and their room counts for the quota
    again. With --keep, yanked releases are not counted among the newest, and what is not a version of PEP 440 stays.

    The index keeps no times of uploads, so --older-than goes by the date in a version alone. A version without a date
    stays, and is named."""
    check_room(args)
    pairs = [] if args.keep is not None else releases_meant(args)
    names = list(dict.fromkeys(it for it, _ in pairs)) or [args.name]
    check_names(*names)
    desk = Desk(args)
    found = {name: contents_of(desk.index, name) for name in names}
    rows = rows_named(pairs, found) if pairs else rows_over(args, releases_of(args.name, found[args.name]))
    if not rows:
        note("There is nothing to delete.")
        return 0
    confirm(args, tell_room(args, rows))
    with told_if_interrupted(lambda: "Some of the files are there still. Run it again."):
        for file in (it for row in rows for it in row.files):
            if desk.delete(file):
                tell_uncache(desk, project_of(file), [file])
    return desk.status()


def check_room(args: argparse.Namespace) -> None:
    """Stops unless the options fit together, and mean what they say."""
    if args.keep is None and (args.matching is not None or args.older_than is not None):
        raise Stop(WRONG, "--matching and --older-than go with --keep N, which says how many of the newest stay.")
    if args.keep is not None and (args.releases or "==" in args.name):
        raise Stop(WRONG, "Name releases, or say by --keep N how many of the newest stay of one name.")
    if (args.keep or 0) < 0 or (args.older_than or 0) < 0:
        raise Stop(WRONG, "--keep and --older-than take a number from 0 on.")


def rows_named(pairs: Sequence[Pair], found: Dict[str, List[FileRow]]) -> List[ReleaseRow]:
    """The releases of these names. Stops if one is not there, before anything goes."""
    rows = {(name, it.release): it for name in found for it in releases_of(name, found[name])}
    for name, release in pairs:
        if (name, release.lower()) not in rows:
            raise Stop(REFUSED, f"{no_release(name, release, found[name])} Nothing was done.")
    return [rows[it] for it in dict.fromkeys((name, release.lower()) for name, release in pairs)]


def rows_over(args: argparse.Namespace, rows: Sequence[ReleaseRow]) -> List[ReleaseRow]:
    """The releases that --keep, --matching and --older-than leave no place for. Those without a date are named."""
    over = releases_over(rows, args.keep, "*" if args.matching is None else args.matching)
    if args.older_than is None:
        return over
    undated = [it.release for it in over if not day_of(it.release)]
    if undated:
        note(f"These stay, since their versions have no date: {', '.join(undated)}.", "yellow")
    return older_than(over, args.older_than, datetime.datetime.now(datetime.timezone.utc).date())


def tell_room(args: argparse.Namespace, rows: Sequence[ReleaseRow]) -> str:
    """What will go: each release to a person, and how much it is."""
    if not args.yes:
        for row in rows:
            note(f"{row.name} {row.release}: {', '.join(row.files)}, {human(row.size)}")
    files, size = sum(len(it.files) for it in rows), sum(it.size for it in rows)
    return f"{counted(len(rows), 'release')} with {counted(files, 'file')}, {human(size)}, will be deleted."
