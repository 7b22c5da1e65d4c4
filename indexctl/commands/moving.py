"""Projects that move in from elsewhere, and out into a folder."""
from __future__ import annotations

import argparse
import dataclasses
import json
import os
import shlex
import threading
from typing import Sequence

from indexctl.changes import Desk
from indexctl.command_line import argument, command
from indexctl.commands.arguments import JSON
from indexctl.ends import REFUSED, WRONG, Stop
from indexctl.interrupts import told_if_interrupted
from indexctl.moving.exports import OWNERS, Export
from indexctl.moving.imports import Import, Report, read_owners
from indexctl.moving.items import Found, Left, other_hosts, read_wanted, settle, tell_missing
from indexctl.moving.sources import OtherIndex, Source
from indexctl.moving.trees import Tree, tree_of
from indexctl.names import check_names
from indexctl.settings import without_password
from indexctl.standings import listed_names
from indexctl.terminal import note, put, say
from indexctl.units import counted

AGAIN = "What was imported stays. Run this again to go on."


def source_of(args: argparse.Namespace, desk: Desk, stopped: threading.Event) -> Source:
    if "://" in args.source:
        return OtherIndex(args.source, desk.setting.ca, args.again, not args.without_digests, stopped)
    return tree_of(args.source)


def found_at(source: Source, args: argparse.Namespace) -> Found:
    """What a source has of the names that are asked for, with what is said before anything is imported."""
    wanted = read_wanted(args.names)
    found = source.find(wanted)
    tell_missing(found, wanted)
    settle(found)
    count = sum(len(it.items) for it in found.projects.values())
    note(f"found {counted(count, 'file')} of {counted(len(found.projects), 'project')}")
    for host, number in other_hosts(found, source.host).items() if isinstance(source, OtherIndex) else ():
        note(f"{counted(number, 'file')} would come from another host than the pages: {host}", "yellow")
    path = os.path.join(args.source, OWNERS)
    if not args.owners and isinstance(source, Tree) and os.path.exists(path):
        note(f"{path} names owners. They become owners here by --owners {shlex.quote(path)}.")
    return found


@command("import",
         argument("source", metavar="SOURCE", help="a folder, of any depth, or the address of an index's /simple/"),
         argument("names", nargs="*", metavar="PROJECT", help="only these, such as frob or frob==1.0"),
         argument("--owners", metavar="FILE", help="makes others owners too: a CSV file with `name,user` in each line"),
         argument("--without-digests", action="store_true",
                  help="imports files too of which the index names no SHA-256, so that nobody can check them"),
         argument("--dry-run", action="store_true", help="says what would be imported and what can't be, and ends"),
         JSON)
def import_(args: argparse.Namespace) -> int:
    """Names that nobody holds are claimed by you, and yanks come with their reasons. A file that is there with the same
    bytes is passed over, so you may repeat a run: after Ctrl-C, or on the day on which you move, for what came since.
    What can't be imported is left, and listed at the end with the reason; all else goes on.

    A password for the source stands in its address or in ~/.netrc."""
    owners = read_owners(args.owners) if args.owners else {}
    desk, stopped = Desk(args), threading.Event()
    source = source_of(args, desk, stopped)
    if not args.dry_run and desk.caller() == "nobody":
        raise Stop(REFUSED, f"No user has this token, which comes from {desk.setting.source}. Nothing was imported.")
    note(f"importing from {without_password(args.source) if '://' in args.source else args.source} to "
         f"{desk.setting.url}, which {desk.setting.place} names")
    with told_if_interrupted(lambda: AGAIN):
        work = Import(desk, source, found_at(source, args), args.dry_run, stopped,
                      lambda text: note(text) if args.json else say(text))
        try:
            work.run(owners)
        except Stop as end:
            tell_report(args, work.report)
            raise Stop(end.status, f"{end} {AGAIN}") from end
    tell_report(args, work.report)
    return REFUSED if work.report.left and not args.dry_run else 0


def tell_report(args: argparse.Namespace, report: Report) -> None:
    """Says what became of an import, and lists what was left, each with the reason."""
    if args.json:
        put(json.dumps(dataclasses.asdict(report), indent=1))
        return
    tell_left(report.left)
    would = "would be " if args.dry_run else ""
    more = [counted(len(its), what) for its, what in (
        (report.claimed, "new name"), (report.yanked, "yank"), (report.owners, "owner")) if its]
    say(f"{counted(report.imported, 'file')} {would}imported, {report.there} there already, {len(report.left)} left"
        + (f"; {', '.join(more)}" if more else ""))


def tell_left(left: Sequence[Left]) -> None:
    for it in sorted(left, key=lambda it: it.place):
        say(f"left: {it.place}: {it.why}", "yellow")


@command("export",
         argument("folder", metavar="DIR", help="the folder, which is made if it is not there"),
         argument("names", nargs="*", metavar="NAME", help="only these projects"), JSON)
def export(args: argparse.Namespace) -> int:
    """`indexctl import DIR --owners DIR/owners.csv` takes them again, there or at another index. Each project has a
    folder with its files and its page, index.json, as PEP 691 has it. A file that is there is passed over, so you may
    repeat a run."""
    check_names(*args.names)
    desk, stopped = Desk(args), threading.Event()
    try:
        os.makedirs(args.folder, exist_ok=True)
    except OSError as end:
        raise Stop(WRONG, f"{args.folder} can't be made: {end.strerror}") from end
    work = Export(desk.index, args.folder, stopped)
    with told_if_interrupted(lambda: "Run this again to go on."):
        work.run(list(dict.fromkeys(args.names)) or listed_names(desk.index, is_fresh=True))
    report = work.report
    if args.json:
        put(json.dumps(dataclasses.asdict(report), indent=1))
    else:
        tell_left(report.left)
        say(f"{counted(len(report.projects), 'project')}: {counted(report.written, 'file')} written, {report.there} "
            f"there already, {len(report.left)} left")
    return REFUSED if report.left else 0
