"""A folder of any depth as a source: of another index, or one that `indexctl export` has written."""
from __future__ import annotations

import filecmp
import hashlib
import os
import stat
from dataclasses import replace
from typing import Dict, Iterator, Optional, Sequence

from indexctl.ends import WRONG, Stop
from indexctl.moving.items import Found, Item, Left, Wanted, add_items, is_archive, is_wanted
from indexctl.moving.pages import MOST_PAGE, item_of
from indexctl.moving.web import Failure
from indexctl.transport import object_of
from indexctl.uploads import MOST_BYTES
from package_index.names import is_name, normal, read_file_name

# beside the files of a project: its page, as PEP 691 has it, and how its name is written
PAGE, SHOWN = "index.json", "_name"


class Tree:
    """A folder and what is below it. Links are followed as long as they stay inside."""
    is_here = True

    def __init__(self, folder: str) -> None:
        self.folder, self.top = folder, os.path.realpath(folder)

    def find(self, wanted: Wanted) -> Found:
        found = Found()
        known: Dict[str, Item] = {}

        def fail(end: OSError) -> None:
            found.left.append(Left(str(end.filename), f"it can't be read: {end.strerror}"))
        for where, inner, names in os.walk(self.folder, onerror=fail):
            inner.sort()
            add_items(found, self.items_in(where, sorted(names), known, found, wanted), wanted)
        return found

    def items_in(self, where: str, names: Sequence[str], known: Dict[str, Item], found: Found,
                 wanted: Wanted) -> Iterator[Item]:
        """The files of one folder, by its page if it has one. `known` are those of the folders before."""
        page = self.page_in(where, found, wanted) if PAGE in names else None
        for name in names:
            item = Item(name, os.path.join(where, name))
            if not is_archive(name):
                continue
            why = self.why_not(item.place)
            if page is not None and not why:
                item = replace(page.pop(name), place=item.place) if name in page else item
                why = "" if item.sha256 else f"{PAGE} beside it does not name it"
            why = why or why_other(known.get(name), item)
            if why:
                found.left.append(Left(item.place, why))
            elif name not in known:
                known[name] = item
                yield replace(item, size=os.path.getsize(item.place))
        for name in page or ():
            spelled = read_file_name(name)
            if not wanted or spelled and is_wanted(wanted, spelled.project, spelled.release):
                found.left.append(Left(os.path.join(where, name), f"{PAGE} names it, and it is not there"))

    def page_in(self, where: str, found: Found, wanted: Wanted) -> Optional[Dict[str, Item]]:
        """What the page of a folder says of its files by their names, or None if it is no page of a project."""
        path = os.path.join(where, PAGE)
        if self.why_not(path) or os.path.getsize(path) > MOST_PAGE:
            return None
        with open(path, "rb") as kept:
            page = object_of(kept.read(MOST_PAGE)) or {}
        rows, shown = page.get("files"), page.get(SHOWN)
        if not isinstance(rows, list):
            return None
        if isinstance(shown, str) and is_name(shown) and (not wanted or normal(shown) in wanted):
            found.project(normal(shown)).shown = shown
        items = ((row, item_of(row, "", "files")) for row in rows if isinstance(row, dict))
        # an index that has no Requires-Python for a file says so by an empty one
        return {it.file: Item(it.file, "", it.sha256, it.yanked,
                              "" if row.get("requires-python") == "" else it.requires) for row, it in items if it}

    def why_not(self, path: str) -> str:
        """Why a file is not read: it is none, or it leads out of the folder."""
        try:
            kind = os.stat(path).st_mode
        except OSError as end:
            return f"it can't be read: {end.strerror}"
        if not stat.S_ISREG(kind):
            return "it is not a file"
        real = os.path.realpath(path)
        if os.path.commonpath([self.top, real]) != self.top:
            return f"it is a link to {real}, outside of {self.folder}"
        return ""

    def bytes_of(self, item: Item) -> bytes:
        try:
            with open(item.place, "rb") as kept:
                data = kept.read(MOST_BYTES + 1)
        except OSError as end:
            raise Failure(f"it can't be read: {end.strerror}") from end
        if item.sha256 and hashlib.sha256(data).hexdigest() != item.sha256:
            raise Failure(f"its bytes have another digest than {PAGE} says")
        return data


def why_other(one: Optional[Item], other: Item) -> str:
    """Why a second file of the same name can't be imported, if it has other bytes."""
    if one and not filecmp.cmp(one.place, other.place, shallow=False):
        return f"it has other bytes than {one.place}"
    return ""


def tree_of(folder: str) -> Tree:
    if not os.path.isdir(folder):
        raise Stop(WRONG, f"{folder} is neither a folder nor an address such as https://pypi.org/simple/.")
    return Tree(folder)
