"""Uploads, the page of the office, and the replay of a record."""
from __future__ import annotations

import argparse
import json
import os
import time
from collections import deque
from typing import Dict, Sequence

from indexctl.changes import Desk
from indexctl.command_line import argument, command
from indexctl.commands.arguments import JSON_LINES
from indexctl.ends import REFUSED, WRONG, Stop
from indexctl.interrupts import told_if_interrupted
from indexctl.names import sha256
from indexctl.page import page_of, put_whole
from indexctl.probe import open_cases
from indexctl.quotas import Overview
from indexctl.replays import Attempts, Line, lines_since, read_lines, replay_line, why_left
from indexctl.standings import Case, find_standing, held_names
from indexctl.terminal import note, say_row
from indexctl.units import counted, read_moment
from indexctl.uploads import files_of, upload_file


@command("upload",
         argument("paths", nargs="+", metavar="PATH",
                  help="a file, or a folder of which each .whl and .tar.gz is taken"),
         argument("--claim", action="store_true", help="claims a name that nobody holds"),
         argument("--dry-run", action="store_true", help="checks all files, says what would go out, and ends"),
         JSON_LINES)
def upload(args: argparse.Namespace) -> int:
    """All files are read and checked before the first goes out: the name, the size, and the metadata inside, which has
    Requires-Python. Wheels go first and source archives last, so that nobody builds what is there as a wheel a moment
    later. A file that is there already with the same bytes is no error, so you may repeat a run. What passes by itself
    (no connection, 500, 502, 503, 504) is tried again."""
    files, done, status = files_of(args.paths), 0, 0
    if args.dry_run:
        for it in files:
            text = f"{it.name}: {it.project}, {it.size} bytes, sha256 {it.digest}, Python {it.requires or 'any'}"
            say_row(args.json, text, {"do": "upload", "file": it.name, "name": it.project, "size": it.size,
                                      "sha256": it.digest, "requires_python": it.requires})
        return 0
    desk = Desk(args)
    desk.token()
    note(f"uploading to {desk.setting.url}, which {desk.setting.place} names")
    try:
        cases = cases_on(desk, [file.project for file in files])
        for file in files:
            done += upload_file(desk, file, args.claim)
            tell_ended(desk, cases, file.project)
    except Stop as end:
        if end.status == WRONG and not done:
            raise
        note(f"indexctl: {end}", "red")
        status = end.status
    desk.say(f"{done} of {len(files)} files are there")
    return status or (0 if done == len(files) else REFUSED)


def cases_on(desk: Desk, projects: Sequence[str]) -> Dict[str, Case]:
    """The open cases on these projects, of which each is told: an upload by an owner ends it."""
    found = {it: find_standing(desk.index, it).case for it in sorted({*projects})}
    cases = {project: case for project, case in found.items() if case}
    for project, case in cases.items():
        note(f"{project}: {case.candidate} has opened a case on this name, to {case.kind} it. An upload ends it.",
             "yellow")
    return cases


def tell_ended(desk: Desk, cases: Dict[str, Case], project: str) -> None:
    """Tells that a case is no longer open, once."""
    case = cases.get(project)
    if case and find_standing(desk.index, project).case is None:
        del cases[project]
        note(f"{project}: the case of {case.candidate} has ended by this upload. If nobody looks after the name any "
             "more, take this user off its owners.", "yellow")


@command("page",
         argument("folder", metavar="DIR", help="a folder that is there"),
         argument("--all", action="store_true", help="with the quotas of all names, and all owners"), JSON_LINES)
def page(args: argparse.Namespace) -> None:
    """The page, DIR/index.html, is one file with open cases, what is due, names that look alike, quotas that are nearly
    full, and names with one owner. It asks for nothing from elsewhere. It is replaced as a whole. With a token of the
    office it also has the year since the latest upload."""
    if not os.path.isdir(args.folder):
        raise Stop(WRONG, f"{args.folder} is not a folder.")
    desk, now, found = Desk(args), int(time.time()), Overview(args.all)
    cases, _ = open_cases(desk, found.look_at(held_names(desk.index)), now)
    path = os.path.join(args.folder, "index.html")
    put_whole(path, page_of(desk.setting.url, found, cases, now))
    desk.say(f"{path}: {counted(len(found.owners), 'name')}, {counted(len(cases), 'open case')}",
             {"do": "page", "path": path, "names": len(found.owners), "cases": len(cases)})


@command("replay",
         argument("file", metavar="RECORD", help="a record of indexctl (INDEX_RECORD), or nginx's log of changes"),
         argument("--since", required=True, metavar="MOMENT",
              help="when the backup was made, such as 2026-11-24T03:15:00Z, or the name of the backup"),
         argument("--from", type=int, default=1, metavar="LINE", dest="first",
              help="the line to begin at, after a replay that broke off"),
         argument("--caller", metavar="DIGITS",
                  help="asks for what the caller of these digits asked for, as if you had"),
         argument("--dry-run", action="store_true", help="says what would be asked for, and ends"), JSON_LINES)
def replay(args: argparse.Namespace) -> int:
    """What you asked for yourself is asked for again, in its order, from the backup on. All else is listed, with who
    has to repeat it."""
    since, record = read_moment(args.since), read_lines(args.file)
    lines, desk = lines_since(record, since, args.first), Desk(args)
    mine, is_office = args.caller or sha256(desk.token())[:8], desk.caller() == "office"
    left, attempts, waiting = 0, Attempts(desk, record, since), deque(lines)
    with told_if_interrupted(lambda: go_on(waiting)):
        while waiting:
            line = waiting[0]
            try:
                why = why_left(line, desk.setting.url, mine, is_office) or attempts.why_left(line)
                if why:
                    left += 1
                    note(f"line {line.number} is left, {why}: {json.dumps(line.row)}", "yellow")
                    if args.json:
                        desk.say("", {**line.row, "line": line.number, "answer": "left", "hint": why})
                elif not args.dry_run:
                    replay_line(desk, line)
                else:
                    desk.say(f"line {line.number}: {json.dumps(line.row)}", {**line.row, "line": line.number})
            except Stop as end:
                raise Stop(end.status, f"line {line.number}: {end} {go_on(waiting)}") from end
            waiting.popleft()
        desk.say(f"{counted(len(lines) - left, 'line')} of yours, {left} left, {counted(desk.refused, 'refusal')}")
    return desk.status()


def go_on(waiting: Sequence[Line]) -> str:
    """How to go on after a replay that ended at the first of these lines."""
    return f"Go on by --from {waiting[0].number}, or the line after it." if waiting else "All lines were done."
