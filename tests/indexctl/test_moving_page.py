"""Each block of docs/users/MOVING.md, run as it stands there but for the addresses, against a server that lays out its
pages and files as the product of that name does."""
from __future__ import annotations

import json
import os
import subprocess

import pytest
from support.clients.page import read_recipes
from support.indexctl.control import digest, environment, put
from support.indexctl.sources import KINDS, made_world, pypi_page, pypiserver, row_of, serving
from support.packages import wheel_name
from support.places import INDEXCTL, TOP
from support.serving import JSON_PAGE, Index, accepted

PAGE = f"{TOP}/docs/users/MOVING.md"
RECIPES, UNMARKED = read_recipes(PAGE)
WHEEL, LATER = wheel_name("frob", "1.0"), wheel_name("frob", "1.1")
SERVERS = {"devpi": KINDS["devpi"], "pypiserver": pypiserver, "Nexus": KINDS["nexus"],
           "Artifactory": KINDS["artifactory"], "GitLab": KINDS["gitlab"]}
LOGIN = "Basic cmVhZGVyOnMzY3JldA=="
OTHERS = {"The user that imports", "A folder", "A password for the source", "A few packages of PyPI", "Owners",
          "An import with owners", "Take yourself off", "Export and import"}


class Mover:
    """Somebody in a folder of their own, who imports as the user `mover`."""

    def __init__(self, folder: str, index: Index) -> None:
        self.folder, self.index, self.addresses = f"{folder}/project", index, {}
        self.url = f"http://127.0.0.1:{index.port}"
        os.makedirs(f"{folder}/home")
        os.makedirs(f"{folder}/bin")
        os.makedirs(self.folder)
        put(f"{folder}/bin/indexctl", f'#!/bin/sh\nexec {" ".join(INDEXCTL)} "$@"\n', 0o755)
        self.setting = {"HOME": f"{folder}/home", "PATH": f"{folder}/bin:{os.environ['PATH']}",
                        "INDEX_URL": self.url, "INDEX_TOKEN": "mover"}

    def filled(self, text: str) -> str:
        for old, new in {**self.addresses, "https://packages.example": self.url, "YOUR-TOKEN": "mover",
                         "artifactory.example": "127.0.0.1", "YOUR-PASSWORD": "s3cret"}.items():
            text = text.replace(old, new)
        return text

    def does(self, name: str, status: int = 0) -> str:
        words = ["bash", "-euc", self.filled(RECIPES[name].text)]
        ended = subprocess.run(words, cwd=self.folder, timeout=300, text=True, env=environment(**self.setting),
                               stdin=subprocess.DEVNULL, stdout=subprocess.PIPE, stderr=subprocess.STDOUT)
        assert ended.returncode == status, ended.stdout
        return ended.stdout

    def writes(self, name: str) -> None:
        path = RECIPES[name].path.replace("~", self.setting["HOME"])
        put(os.path.join(self.folder, path), self.filled(RECIPES[name].text))

    def rows(self, name: str) -> list:
        status, _, body = self.index.ask("GET", f"/simple/{name}/", Accept=JSON_PAGE)
        return json.loads(body)["files"] if status == 200 else []

    def files(self, name: str) -> set:
        return {it["filename"] for it in self.rows(name)}

    def owners(self, name: str) -> list:
        return json.loads(self.index.ask("GET", f"/names/{name}")[2])["owners"]


@pytest.fixture
def mover(program, folder):
    with Index(program) as index:
        for user in ("mover", "ann", "cibuild"):
            accepted(index.request(do="add_user", user=user, office=False, token_sha256=digest(user)))
        yield Mover(folder, index)


@pytest.fixture
def world(folder):
    return made_world(f"{folder}/made")


def in_folder(mover: Mover, world) -> None:
    for name, files in world.items():
        for file, data in files.items():
            os.makedirs(f"{mover.folder}/packages/{name}", exist_ok=True)
            with open(f"{mover.folder}/packages/{name}/{file}", "wb") as made:
                made.write(data)


def test_each_block_is_run_by_a_test():
    assert not UNMARKED and {*RECIPES} == {*SERVERS} | OTHERS
    assert all(it.is_tested for it in RECIPES.values())


@pytest.mark.parametrize("name", SERVERS)
def test_an_index_of_this_kind_moves_here(mover, world, name):
    """With its yanks, and with a password in ~/.netrc where the page has one."""
    yanks = {file: "old" for file in world["frob"] if file != LATER}
    other = SERVERS[name](world, yanks=yanks)
    is_locked = name == "Artifactory"

    def before(path, asked):
        is_known = not is_locked or server.asked[-1][3].get("Authorization") == LOGIN
        return () if is_known else (401, "text/plain", b"")
    with serving(other.replies, before) as server:
        mover.addresses[f"https://{name.lower()}.example"] = server.url
        if is_locked:
            mover.writes("A password for the source")
        said = mover.does(name)
    assert "4 files imported, 0 there already, 0 left; 2 new names, 1 yank" in said, said
    assert {name: mover.files(name) for name in world} == {name: {*files} for name, files in world.items()}
    assert {it["filename"] for it in mover.rows("frob") if it.get("yanked") == "old"} == {*yanks}


def test_a_few_packages_of_pypi_come_here(mover, world):
    """The dry run fetches pages alone, and names the other host."""
    with serving({f"/packages/{file}": ("x/y", data) for its in world.values() for file, data in its.items()}) as files:
        other = files.url.replace("127.0.0.1", "localhost")
        pages = {f"/simple/{name}/": pypi_page(name, [row_of(file, data, f"{other}/packages/{file}")
                                                      for file, data in its.items()]) for name, its in world.items()}
        with serving(pages) as server:
            mover.addresses["https://pypi.org"] = server.url
            said = mover.does("A few packages of PyPI")
        assert said.count("3 files would come from another host than the pages: localhost") == 2, said
        assert len(files.paths) == 3 and "3 files would be imported" in said and "3 files imported" in said, said
    assert mover.files("frob") == {*world["frob"]} - {LATER} and mover.files("spam-nest") == {*world["spam-nest"]}


def test_a_folder_comes_here_and_gets_its_owners(mover, world):
    in_folder(mover, world)
    assert "token" in mover.does("The user that imports")
    said = mover.does("A folder")
    assert "4 files would be imported" in said, said
    assert "4 files imported, 0 there already, 0 left; 2 new names" in said, said
    mover.writes("Owners")
    assert "0 files imported, 4 there already, 0 left; 3 owners" in mover.does("An import with owners")
    assert (mover.owners("frob"), mover.owners("spam-nest")) == (["ann", "cibuild", "mover"], ["ann", "mover"])
    mover.does("Take yourself off")
    assert (mover.owners("frob"), mover.owners("spam-nest")) == (["ann", "cibuild"], ["ann"])


def test_what_is_here_goes_out_again(mover, world):
    in_folder(mover, world)
    mover.does("A folder")
    said = mover.does("Export and import")
    assert "2 projects: 4 files written, 0 there already, 0 left" in said, said
    assert "0 files imported, 4 there already, 0 left" in said, said
