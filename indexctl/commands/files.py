"""Files that are there."""
from __future__ import annotations

import argparse
from typing import Dict, List, Optional, Sequence

from indexctl.changes import Desk
from indexctl.command_line import command
from indexctl.commands.arguments import FILES, JSON_LINES, YES
from indexctl.commands.names import tell_uncache
from indexctl.contents import FileRow, find_contents
from indexctl.names import file_named, project_of
from indexctl.near import did_you_mean, not_held
from indexctl.served import tell_served
from indexctl.terminal import confirm, confirm_on_terminal
from indexctl.transport import Index
from indexctl.units import human


def tell_files(index: Index, projects: Dict[str, str]) -> str:
    """What is there of these files, each with its project: sizes, yanks, and what was perhaps meant by a slip."""
    found = {it: find_contents(index, it, is_fresh=True) for it in set(projects.values())}
    return " ".join(tell_file(index, file, project, found[project]) for file, project in projects.items())


def tell_file(index: Index, file: str, project: str, files: Optional[Sequence[FileRow]]) -> str:
    if files is None:
        return f"{file}: {not_held(index, project)}"
    row = next((it for it in files if it.file == file), None)
    if row is None:
        return f"{file} is not on the index.{did_you_mean(file, [it.file for it in files])}"
    return f"{file} has {human(row.size)}{'' if row.yanked is None else ', and is yanked'}."


@command("file delete", FILES, YES, JSON_LINES)
def file_delete(args: argparse.Namespace) -> int:
    """On a terminal it shows the files first, and asks. The name of a file stays bound to its bytes. Who knows a file's
    address still gets it from nginx, until the index-uncache line that is printed is run on the server."""
    projects = {file: project_of(file) for file in map(file_named, args.files)}
    desk = Desk(args)
    confirm_on_terminal(args, f"{', '.join(projects)} will be deleted. {tell_files(desk.index, projects)}")
    for file, project in projects.items():
        if desk.delete(file):
            tell_uncache(desk, project, [file])
    return desk.status()


@command("file ban", FILES, YES, JSON_LINES)
def file_ban(args: argparse.Namespace) -> int:
    """No upload of the file is accepted from then on, and nothing takes a ban back. At its end it says whether the
    address of a file still gives it, as nginx does until the index-uncache line is run on the server."""
    projects = {file: project_of(file) for file in map(file_named, args.files)}
    desk = Desk(args)
    banned: List[str] = []
    confirm(args, f"{', '.join(projects)} will be banned for good. {tell_files(desk.index, projects)}")
    for file, project in projects.items():
        if desk.change(f"ban {file}", {"do": "ban_file", "file": file}):
            banned.append(file)
            tell_uncache(desk, project, [file])
    tell_served(desk, banned)
    return desk.status()
