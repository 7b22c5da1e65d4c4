"""What the pages say of a project: how its name stands, its releases, and what its newest release says of itself."""
from __future__ import annotations

import re
from dataclasses import dataclass, replace
from typing import Dict, List, Optional, Sequence

from indexctl.contents import FileRow, Release, find_contents, releases_in
from indexctl.site.about import NOTHING, About, read_about
from indexctl.site.descriptions import Descriptions
from indexctl.standings import Standing, find_standing, listed_names, side_by_side
from indexctl.transport import Index, Request
from indexctl.versions import is_final, is_release
from package_index.names import file_path


DIGEST = re.compile("[0-9a-f]{64}")


@dataclass(frozen=True)
class Project:
    """A held name. `newest` is what an installer takes, or an empty text; `digest` is of the file that was read."""
    standing: Standing
    releases: List[Release]
    newest: str
    digest: str
    about: About


def newest_of(releases: Sequence[Release]) -> str:
    """The newest release that is not yanked; a pre-release only if there is no other."""
    able = [release for release, files in releases if files[0].yanked is None and is_release(release)]
    return next(filter(is_final, able), able[0] if able else "")


def newest_file(releases: Sequence[Release], newest: str) -> Optional[FileRow]:
    """A wheel of the newest release, or its source archive; if nothing can be installed, the newest wheel."""
    files = [it for _, files in releases for it in files if DIGEST.fullmatch(it.sha256)]
    wheels = [it for it in files if it.file.endswith(".whl")]
    return next((it for it in (*wheels, *files) if it.release == newest), wheels[0] if wheels else None)


def find_about(index: Index, name: str, file: FileRow, kept: Dict[str, About], descriptions: Descriptions) -> About:
    """What a file says. Its bytes never change, so it is read once."""
    about = kept.get(file.sha256)
    if about and descriptions.has(file.sha256, about.described):
        return about
    reply = index.ask(file.file, Request("GET", file_path(name, file.file)))
    if reply.status != 200:
        # it was deleted meanwhile, and the next run sees that
        return NOTHING
    about, description = read_about(file.file, reply.body)
    kept[file.sha256] = replace(about, described=descriptions.put(file.sha256, description))
    return kept[file.sha256]


def find_project(index: Index, kept: Dict[str, About], descriptions: Descriptions, name: str) -> Optional[Project]:
    """A project, or None if its name was given up meanwhile."""
    standing, files = find_standing(index, name), find_contents(index, name)
    if standing.state != "held" or files is None:
        return None
    releases = releases_in(files)
    newest = newest_of(releases)
    read = newest_file(releases, newest)
    about = find_about(index, standing.name, read, kept, descriptions) if read else NOTHING
    return Project(standing, releases, newest, read.sha256 if read else "", about)


def find_projects(index: Index, kept: Dict[str, About], descriptions: Descriptions) -> List[Project]:
    """All projects, in the order of their names."""
    found = side_by_side(lambda names: [find_project(index, kept, descriptions, it) for it in names],
                         listed_names(index), "projects")
    return sorted((it for it in found if it), key=lambda it: it.standing.name)
