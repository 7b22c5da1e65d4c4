"""Which project needs which, and what the pages say of all projects as JSON, for programs."""
from __future__ import annotations

import json
from typing import Dict, Iterator, List, Mapping, NamedTuple, Optional, Sequence

from indexctl.site.about import need_of
from indexctl.site.projects import Project
from indexctl.units import iso
from package_index.names import normal

class Around(NamedTuple):
    """What pages say beyond their own project: by each held name the projects that need it, when files were uploaded
    as far as that is known, and whether there is a feed."""
    users: Mapping[str, Sequence[str]]
    uploaded: Mapping[str, int]
    has_feed: bool


# of the users of a project, so many stand on its page
MOST_SHOWN = 200


def needed_by(projects: Sequence[Project]) -> Dict[str, List[str]]:
    """By the normal name of each held project, the projects whose newest release needs it."""
    found: Dict[str, List[str]] = {it.standing.name: [] for it in projects}
    for project in projects:
        for name in names_needed(project):
            if name in found:
                found[name].append(project.standing.name)
    return found


def names_needed(project: Project) -> List[str]:
    """The normal names of what a project needs, in the order of letters, those of its extras too."""
    return sorted({normal(need[0]) for need in map(need_of, project.about.needs) if need})


def uploaded_at(release: str, project: Project, uploaded: Mapping[str, int]) -> Optional[int]:
    """When the first file of a release was uploaded, as far as it is known of each."""
    files = [it.file for name, its in project.releases if name == release for it in its]
    return min(uploaded[it] for it in files) if files and all(it in uploaded for it in files) else None


def row_of(project: Project, around: Around) -> Dict[str, object]:
    """What is said of a project."""
    found, about = project.standing, project.about
    at = uploaded_at(project.newest, project, around.uploaded)
    return {"name": found.name, "shown": found.shown, "owners": found.owners, "newest": project.newest,
            "uploaded": None if at is None else iso(at), "releases": [release for release, _ in project.releases],
            "yanked": [release for release, files in project.releases if files[0].yanked is not None],
            "files": sum(len(files) for _, files in project.releases), "charge": found.charge, "quota": found.quota,
            "case": found.case is not None, "summary": about.summary, "home": about.home, "licence": about.licence,
            "links": about.links, "classifiers": about.classifiers, "needs": about.needs,
            "needed_by": around.users[found.name]}


def json_of(url: str, projects: Sequence[Project], around: Around) -> Iterator[str]:
    """An object with a row for each project, each on a line of its own."""
    yield f'{{"index": {json.dumps(url)}, "projects": ['
    for at, project in enumerate(projects):
        yield ("," if at else "") + "\n" + json.dumps(row_of(project, around))
    yield "\n]}\n"
