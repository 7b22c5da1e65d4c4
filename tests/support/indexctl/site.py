"""The pages for everybody of an index of made-up projects, with nginx that serves them."""
from __future__ import annotations

import os
import time
from contextlib import contextmanager
from dataclasses import dataclass
from typing import Any, Dict, Iterator

from support.indexctl.control import Control, filled, put
from support.indexctl.projects import fill_with_projects
from support.indexctl.sample import NAMES, lines_of
from support.places import NGINX
from support.serving import Index

PEOPLE = "https://packages.example"
COUNT = len(NAMES) + 2
UPLOAD = ('{"at":"2026-11-30T06:00:00+00:00","status":201,"method":"PUT","path":"/files/fjord-queue/'
          'fjord_queue-2.0.tar.gz","file":"","body":""}')
YANK = ('{"at":"2026-11-30T06:00:01+00:00","status":200,"method":"POST","path":"/requests","file":"","body":'
        '"{\\"do\\":\\"yank\\",\\"name\\":\\"fjord-queue\\",\\"release\\":\\"2.1\\"}"}')
FJORD = "/browse/projects/fjord-queue.html"


@dataclass
class Site:
    """The index, its caller, the folder of the pages, its log of changes, what stood there by then, and nginx."""
    index: Any
    by: Control
    folder: str
    log: str
    texts: Dict[str, str]
    ended: Any
    front: Any


def read(path: str) -> str:
    with open(path, encoding="utf-8") as page:
        return page.read()


def texts_of(folder: str) -> Dict[str, str]:
    """Each page of a folder by its path in there."""
    found = {}
    for at, _, names in os.walk(folder):
        for name in (it for it in names if not at.endswith("/.descriptions")):
            found[os.path.relpath(f"{at}/{name}", folder)] = read(f"{at}/{name}")
    return found


@contextmanager
def served_site(program: str, open_folder: str, certificate: str) -> Iterator[Site]:
    """The site, with its pages written once."""
    from support.server.front import Front
    path = filled(program, f"{open_folder}/site.db", lines_of(int(time.time()), markup=True))
    log = put(f"{open_folder}/changes.log", f"{UPLOAD}\n{YANK}\n")
    folder = f"{open_folder}/pages"
    os.mkdir(folder)
    with Index(program, path=path) as index:
        fill_with_projects(index)
        by = Control(open_folder, f"http://127.0.0.1:{index.port}", INDEX_TOKEN=None)
        ended = by.run("site", folder, "--url", PEOPLE, "--log", log)
        front = Front(f"{open_folder}/site-front", certificate, index.port)
        front.put("index/server.d/site.conf", read(f"{NGINX}/site.conf"), **{"/var/lib/index-site": folder})
        with front:
            yield Site(index, by, folder, log, texts_of(folder), ended, front)
