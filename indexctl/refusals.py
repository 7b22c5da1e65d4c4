"""What to do about a refusal, with the owners and the case looked up if its sentence names them."""
from __future__ import annotations

import time
from contextlib import suppress
from typing import Dict, Mapping

from indexctl.cases import case_row
from indexctl.contents import find_contents, releases_in
from indexctl.ends import Stop
from indexctl.near import not_held
from indexctl.standings import Standing, find_standing
from indexctl.transport import Index
from indexctl.units import YEAR, counted, due, human
from package_index.hints import HINTS, fields_of, hint
from package_index.names import is_user, read_file_name

# what a person who mistypes a file's name has to know beside
OF_FILE_NAMES = " A file's name has `_` for the hyphens of its project's name."
# the requests that name a user and a project, with the verb of each
OWNER = {"add_owner": "add", "remove_owner": "remove"}
OF_STANDING = {"owners", "charge", "quota", "candidate", "lacks", "latest"}
OF_FILES = {"files", "releases"}


def hint_of(index: Index, answer: str, row: Mapping[str, object]) -> str:
    """What to do about a refusal. The owners and the case are looked up if the sentence names them."""
    name, file = str(row.get("name", "")), read_file_name(str(row.get("file", "")))
    name = name or (file.project if file else "")
    if answer == "NoProject" and name and row.get("do") != "upload":
        # who doesn't upload has mistyped the name, and must not be led to claim it
        return not_held(index, name) + (OF_FILE_NAMES if file else "")
    if answer == "NoUser" and is_swapped(index, row):
        meant = f"indexctl owner {OWNER[str(row['do'])]} {name} {row['user']}"
        return f"{row['user']} is a project. Did you mean `{meant}`?"
    known = {"source": index.setting.source, "user": str(row.get("user", "")), "name": name}
    asked = fields_of(HINTS.get(answer, ""))
    # the refusal stands, even if nothing more can be looked up
    with suppress(Stop):
        if name and asked & OF_STANDING:
            known.update(known_of_standing(find_standing(index, name)))
        if name and asked & OF_FILES:
            files = find_contents(index, name) or []
            releases = ", ".join(release for release, _ in releases_in(files))
            known.update(files=counted(len(files), "file"), releases=releases or "no files at all")
    more = " A case may be closed by its candidate too." if row.get("do") == "close_case" else ""
    return hint(answer, **{key: text for key, text in known.items() if text}) + (more if answer == "NotOffice" else "")


def is_swapped(index: Index, row: Mapping[str, object]) -> bool:
    """Whether the user and the project of a change of owners changed places: the one is a project, and the other may be
    a user."""
    with suppress(Stop):
        may_be = row.get("do") in OWNER and is_user(str(row.get("name")))
        return may_be and find_standing(index, str(row.get("user"))).state == "held"
    return False


def known_of_standing(found: Standing) -> Dict[str, str]:
    """What a sentence may name of a name's standing."""
    known = {"owners": ", ".join(found.owners) or "nobody", "charge": human(found.charge), "quota": human(found.quota)}
    if found.case:
        row = case_row(found, found.case, int(time.time()), None)
        known.update(candidate=row.candidate, lacks=", ".join(row.lacks) or "nothing that this clock sees",
                     latest=due(row.opened + YEAR))
    return known
