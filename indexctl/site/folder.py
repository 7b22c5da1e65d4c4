"""The folder of the pages: what changed is written, and pages of names that are gone are removed."""
from __future__ import annotations

import dataclasses
import json
import os
from contextlib import contextmanager, suppress
from typing import Container, Dict, Iterable, Iterator, Optional, Sequence

from indexctl.ends import WRONG, Stop
from indexctl.page import open_itself, part_of_page, put_whole
from indexctl.site.about import About, about_from
from indexctl.site.descriptions import Descriptions
from indexctl.site.feed import feed_of
from indexctl.site.log import Log
from indexctl.site.needs import Around, json_of, needed_by
from indexctl.site.pages import list_page, missing_page, project_page
from indexctl.site.projects import Project
from indexctl.terminal import Progress
from indexctl.transport import object_of

try:
    import fcntl
except ImportError:
    # Windows: there two runs at once are left to you
    fcntl = None  # type: ignore[assignment]

# what files said, by their digests; also the mark of a folder that may be written
KEPT, PROJECTS = ".wheels.json", "projects"


@contextmanager
def kept_in(folder: str) -> Iterator[Dict[str, About]]:
    """What files said in the run before. A second run of the same folder waits for the first."""
    path = os.path.join(folder, KEPT)
    if os.listdir(folder) and not os.path.exists(path):
        raise Stop(WRONG, f"{folder} has files of something else. Name an empty folder, or that of the pages.")
    with open(path, "a+", encoding="utf-8", errors="replace", opener=open_itself) as file:
        if fcntl:
            fcntl.flock(file, fcntl.LOCK_EX)
        file.seek(0)
        found = object_of(file.read().encode()) or {}
        pairs = ((digest, about_from(it)) for digest, it in found.items())
        kept = {digest: about for digest, about in pairs if about}
        yield kept
        file.truncate(0)
        file.write(json.dumps({digest: dataclasses.asdict(it) for digest, it in kept.items()}))


def put_changed(path: str, text: str) -> bool:
    """Writes a page as a whole if it says something else than before. It is not synced to the disk: what a power cut
    spoils is another text, and written again."""
    with suppress(OSError, UnicodeDecodeError), open(path, encoding="utf-8", newline="") as before:
        if before.read() == text:
            return False
    put_whole(path, [text], is_synced=False)
    return True


def put_pages(folder: str, url: str, projects: Sequence[Project], descriptions: Descriptions,
              log: Optional[Log]) -> int:
    """Writes all pages, and gives how many changed. The list comes after the pages to which it leads, and before those
    go to which it leads no more. So each link leads somewhere, wherever a run ends."""
    inner = os.path.join(folder, PROJECTS)
    if os.path.islink(inner):
        raise Stop(WRONG, f"{inner} is a link: pages of another folder would be removed. Put a folder there.")
    os.makedirs(inner, exist_ok=True)
    own = {f"{it.standing.name}.html": it for it in projects}
    around = Around(needed_by(projects), log.uploaded if log else {}, log is not None)
    changed = [put_changed(os.path.join(folder, name), text) for name, text in (
        ("404.html", missing_page(url)),
        ("style.css", part_of_page("page.css") + part_of_page("site/site.css")),
        *((name, part_of_page(f"site/{name}")) for name in ("site.js", "icon.svg")))]
    with Progress("pages", len(own)) as progress:
        for name, it in own.items():
            description = descriptions.html(it.digest, it.about.described)
            changed.append(put_changed(os.path.join(inner, name), project_page(url, it, description, around)))
            progress.step()
    changed.append(put_changed(os.path.join(folder, "projects.json"), "".join(json_of(url, projects, around))))
    changed.append(put_feed(os.path.join(folder, "feed.xml"), url, around.users, log))
    changed.append(put_changed(os.path.join(folder, "index.html"), list_page(url, projects, around)))
    return sum(changed) + remove_others(inner, own)


def put_feed(path: str, url: str, held: Container[str], log: Optional[Log]) -> bool:
    """Writes the feed, or removes that of a run before if this one has no log."""
    if log:
        return put_changed(path, "".join(feed_of(url, log, held)))
    is_there = os.path.exists(path)
    if is_there:
        os.remove(path)
    return is_there


def remove_others(inner: str, kept: Iterable[str]) -> int:
    """Removes the pages of names that are gone, and what a killed run left."""
    others = [it for it in set(os.listdir(inner)).difference(kept) if it.endswith((".html", ".html.part"))]
    for name in others:
        os.remove(os.path.join(inner, name))
    return len(others)
