"""The pages for everybody."""
from __future__ import annotations

import argparse
import os

from indexctl.changes import Desk
from indexctl.command_line import argument, command
from indexctl.commands.arguments import JSON_LINES
from indexctl.ends import WRONG, Stop
from indexctl.settings import parts_of_url, plain_url
from indexctl.site.descriptions import Descriptions, Renderer
from indexctl.site.folder import kept_in, put_pages
from indexctl.site.log import keep, read_kept, read_logs
from indexctl.site.projects import find_projects
from indexctl.units import counted


@command("site",
         argument("folder", metavar="DIR", help="a folder that is empty, or has these pages"),
         argument("--url", metavar="URL", help="the address that people use, if it is not the one that is asked"),
         argument("--log", metavar="LOG", action="append",
                  help="nginx's log of changes, for upload times and a feed; may be given several times"), JSON_LINES)
def site(args: argparse.Namespace) -> None:
    """A browser searches the list. The page of a project has its owners, an open case, how to install it, what its
    newest release says of itself, what it needs and which projects need it, and its releases with their files, digests
    and yanks; projects.json has the same for programs. With --log the pages have upload times, and feed.xml the last
    100 uploads, deletions, yanks and claims (Atom). What was read is kept, since a log goes after some days.

    Descriptions in Markdown or reStructuredText are rendered if readme_renderer is there (Debian:
    python3-readme-renderer), and shown as they are if it is not. No token is needed. Only what changed is written, each
    page as a whole, and the pages of names that are gone are removed."""
    if not os.path.isdir(args.folder):
        raise Stop(WRONG, f"{args.folder} is not a folder.")
    url = plain_url(parts_of_url(args.url, "--url")) if args.url else None
    desk = Desk(args)
    with kept_in(args.folder) as kept, Renderer() as renderer:
        descriptions = Descriptions(args.folder, renderer)
        projects = find_projects(desk.index, kept, descriptions)
        log = None
        if args.log:
            files = {it.file for project in projects for _, its in project.releases for it in its}
            log = read_logs(read_kept(args.folder), args.log, files)
            keep(args.folder, log)
        changed = put_pages(args.folder, url or desk.setting.url, projects, descriptions, log)
        used = {it.digest for it in projects}
        for digest in set(kept) - used:
            del kept[digest]
        descriptions.remove_others(used)
    desk.say(f"{args.folder}: {counted(len(projects), 'project')}, {counted(changed, 'page')} changed",
             {"do": "site", "path": args.folder, "names": len(projects), "changed": changed})
