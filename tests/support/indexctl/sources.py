"""Other indexes, as devpi, pypiserver, Nexus, Artifactory, GitLab and PyPI lay out their pages and files."""
from __future__ import annotations

import html
import json
import os
from contextlib import contextmanager
from dataclasses import dataclass, field
from typing import Callable, Dict, Iterator, List, Optional, Tuple

from support.indexctl.scripted import Answer, scripted
from support.packages import make_source, make_wheel, wheel_files, wheel_name
from support.serving import JSON_PAGE, sha256

PYTHON = ">=3.8"
# a file of a project: its name and its bytes
Files = Dict[str, bytes]
World = Dict[str, Files]
DEVPI = """<!DOCTYPE html>
<html lang="en">
  <head>
    <title>root/prod: links for {name}</title>
  </head>
  <body>
    <h1>root/prod: links for {name}</h1>
    {links}
  </body>
</html>"""
NEXUS = """<html lang="en">
<head><title>Links for {name}</title>
<meta name="api-version" value="2"/>
</head>
<body><h1>Links for {name}</h1>
{links}
</body>
</html>
"""


def made_world(folder: str) -> World:
    """Two projects: frob with two wheels and a source archive, and spam-nest with one wheel for some Pythons."""
    made: World = {"frob": {}, "spam-nest": {}}
    os.makedirs(folder, exist_ok=True)

    def add(project: str, file: str, make: Callable[[str], None]) -> None:
        make(f"{folder}/{file}")
        with open(f"{folder}/{file}", "rb") as kept:
            made[project][file] = kept.read()
    for version in ("1.0", "1.1"):
        add("frob", wheel_name("frob", version), lambda path, version=version: make_wheel(
            path, wheel_files("frob", version, f'VERSION = "{version}"\n')))
    add("frob", "frob-1.0.tar.gz", lambda path: make_source(path, "frob", "1.0", {}))
    add("spam-nest", wheel_name("spam_nest", "2.0"), lambda path: make_wheel(
        path, wheel_files("spam_nest", "2.0", "", requires=PYTHON)))
    return made


def wheel_of(folder: str, name: str, version: str, requires: str = "", code: str = "") -> Tuple[str, bytes]:
    """The name and the bytes of a wheel."""
    file = wheel_name(name, version)
    make_wheel(f"{folder}/{file}", wheel_files(name, version, code, requires=requires))
    with open(f"{folder}/{file}", "rb") as kept:
        return file, kept.read()


def anchor(target: str, file: str, more: str = "") -> str:
    return f'<a href="{html.escape(target)}"{more}>{file}</a><br/>'


@dataclass
class Other:
    """An index of another kind at `root`, by whose `place` a file stands. Each is a GET of a path."""
    world: World
    root: str
    place: Callable[[str, str, bytes], str]
    page: str = NEXUS
    mark: str = "sha256"
    yanks: Dict[str, str] = field(default_factory=dict)
    replies: Dict[str, Tuple[str, bytes]] = field(default_factory=dict)

    def __post_init__(self) -> None:
        names = "\n".join(anchor(f"{name}/", name) for name in self.world)
        self.replies[f"{self.root}/"] = "text/html", self.page.format(name="all", links=names).encode()
        for name, files in self.world.items():
            links = "\n".join(self.link(name, file, data) for file, data in files.items())
            self.replies[f"{self.root}/{name}/"] = "text/html", self.page.format(name=name, links=links).encode()
            for file, data in files.items():
                self.replies[self.path(name, file, data)] = "application/octet-stream", data

    def path(self, name: str, file: str, data: bytes) -> str:
        """The path of a file, which may be relative to the page."""
        found = self.place(name, file, data)
        base = f"{self.root}/{name}".split("/")
        while found.startswith("../"):
            found, base = found[3:], base[:-1]
        return found if found.startswith("/") else "/".join([*base, found])

    def link(self, name: str, file: str, data: bytes) -> str:
        digest = {"sha256": f"#sha256={sha256(data)}", "md5": f"#md5={'0' * 32}", "": ""}[self.mark]
        more = f' data-requires-python="{html.escape(PYTHON)}"' if name == "spam-nest" else ""
        more += f' data-yanked="{html.escape(self.yanks[file])}"' if file in self.yanks else ""
        return anchor(f"{self.place(name, file, data)}{digest}", file, more)


def devpi(world: World, **more) -> Other:
    return Other(world, "/root/prod/+simple",
                 lambda name, file, data: f"../../+f/{sha256(data)[:3]}/{sha256(data)[3:16]}/{file}", DEVPI, **more)


def pypiserver(world: World, mark: str = "md5", **more) -> Other:
    return Other(world, "/simple", lambda name, file, data: f"/packages/{file}", mark=mark, **more)


def nexus(world: World, **more) -> Other:
    return Other(world, "/repository/pypi-hosted/simple",
                 lambda name, file, data: f"../../packages/{name}/{file.split('-')[1]}/{file}", **more)


def artifactory(world: World, **more) -> Other:
    return Other(world, "/artifactory/api/pypi/pypi-local/simple",
                 lambda name, file, data: f"../../{name}/{file.split('-')[1]}/{file}", **more)


def gitlab(world: World, **more) -> Other:
    at = "/api/v4/projects/42/packages/pypi"
    return Other(world, f"{at}/simple", lambda name, file, data: f"{at}/files/{sha256(data)}/{file}", **more)


KINDS = {"devpi": devpi, "nexus": nexus, "artifactory": artifactory, "gitlab": gitlab}


def row_of(file: str, data: bytes, url: str, **more: object) -> Dict[str, object]:
    """A file as pypi.org has it in JSON, with keys of each version up to 1.4."""
    digest = sha256(data)
    return {"core-metadata": {"sha256": "1" * 64}, "data-dist-info-metadata": {"sha256": "1" * 64}, "filename": file,
            "hashes": {"sha256": digest}, "provenance": None, "requires-python": None, "size": len(data),
            "upload-time": "2024-05-29T15:37:49.536370Z", "url": url, "yanked": False, **more}


def pypi_page(name: str, rows: List[Dict[str, object]], version: str = "1.4", **more: object) -> Tuple[str, bytes]:
    page = {"alternate-locations": [], "files": rows, "meta": {"_last-serial": 23, "api-version": version},
            "name": name, "project-status": {"status": "active"}, "versions": [], **more}
    return JSON_PAGE, json.dumps(page).encode()


@contextmanager
def serving(replies: Dict[str, Tuple[str, bytes]],
            before: Callable[[str, List[str]], Optional[Answer]] = lambda path, asked: ()) -> Iterator:
    """A server of these replies by their paths. `before` may answer first: it gets the path and all that were asked."""
    asked: List[str] = []

    def answer(method, path, body, headers):
        asked.append(path)
        first = before(path, asked)
        if first != ():
            return first
        found = replies.get(path.partition("?")[0])
        return (200, *found) if found else (404, "text/plain", b"no such page")
    with scripted(answer) as server:
        server.paths = asked
        yield server
