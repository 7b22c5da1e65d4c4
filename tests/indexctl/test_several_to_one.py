"""Several indexes become one, by the blocks of docs/operators/SCALING.md, as they stand there but for ports and
folders."""
from __future__ import annotations

import json
import os
import subprocess
from contextlib import ExitStack
from typing import Iterator

import pytest
from support.indexctl.control import digest, environment, put
from support.indexctl.sources import wheel_of
from support.needed import want_command
from support.places import BIN, INDEXCTL
from support.planted import catches
from support.serving import JSON_PAGE, Index, accepted
from support.server.pasted import block
from support.server.stand_ins import stand_ins

NAMES = "frob", "ham", "x-ray"
EXPORTS = block("for port in 8080 8081 8082; do\n    systemctl")
# what index-backup@PORT.service does
BACKUP = """port=${2#*@} port=${port%.service}
exec python3 -B FOLDER/index-backup "$HOME/$port.db" "$HOME/backups/$port" 14""".replace("FOLDER", BIN)


class Together:
    """Three indexes with a name each, the new one, and whoever brings them together."""

    def __init__(self, folder: str, indexes: list[Index], one: Index) -> None:
        self.folder, self.indexes, self.one = folder, indexes, one
        put(f"{folder}/tools/indexctl", f'#!/bin/sh\nexec {" ".join(INDEXCTL)} "$@"\n', 0o755)
        for it in indexes:
            os.makedirs(f"{folder}/backups/{it.port}")
            os.symlink(it.path, f"{folder}/{it.port}.db")
        self.path = stand_ins(f"{folder}/bin", systemctl=BACKUP)

    def does(self, text: str) -> str:
        """What a block prints, at its end with status 0."""
        ports = [str(it.port) for it in self.indexes]
        for old, new in (("8080 8081 8082", " ".join(ports)), ("127.0.0.1:8080", f"127.0.0.1:{self.one.port}"),
                         ("/var/backups/index", f"{self.folder}/backups")):
            text = text.replace(old, new)
        setting = {"HOME": self.folder, "PATH": f"{self.folder}/tools:{self.path}", "office": "office",
                   "INDEX": self.one.program}
        ended = subprocess.run(["bash", "-uc", text], cwd=self.folder, timeout=300, text=True, stdin=subprocess.DEVNULL,
                               env=environment(**setting), stdout=subprocess.PIPE, stderr=subprocess.STDOUT)
        assert ended.returncode == 0, ended.stdout
        return ended.stdout

    def held(self, name: str) -> tuple[dict[str, str], list[str]]:
        """The files of a name on the new index, each with its digest, and the owners of the name."""
        page = json.loads(self.one.ask("GET", f"/simple/{name}/", Accept=JSON_PAGE)[2])
        owners = json.loads(self.one.ask("GET", f"/names/{name}")[2])["owners"]
        return {it["filename"]: it["hashes"]["sha256"] for it in page["files"]}, owners


@pytest.fixture
def together(program: str, folder: str) -> Iterator[Together]:
    want_command("sqlite3", "sqlite3")
    with ExitStack() as running:
        indexes = [running.enter_context(Index(program)) for _ in NAMES]
        for name, index in zip(NAMES, indexes):
            for user in ("ann", f"of{name[0]}"):
                accepted(index.request(do="add_user", user=user, office=False, token_sha256=digest(user + name[0])))
            accepted(index.claim(name, token=f"ann{name[0]}"))
            accepted(index.request(do="add_owner", name=name, user=f"of{name[0]}", token=f"ann{name[0]}"))
            accepted(index.upload(name, *wheel_of(folder, name.replace("-", "_"), "1.0"), token=f"ann{name[0]}"))
        yield Together(folder, indexes, running.enter_context(Index(program)))


@catches("docs/operators/SCALING.md", "indexctl import $port --owners $port/owners.csv", "indexctl import $port")
@catches("docs/operators/SCALING.md", "SELECT user, lower(hex(token)) FROM users WHERE NOT office",
         "SELECT user, lower(hex(zeroblob(32))) FROM users WHERE NOT office")
def test_one_index_has_what_several_had(together: Together) -> None:
    together.does(EXPORTS)
    said = together.does(block("export INDEX_URL=http://127.0.0.1:8080"))
    assert said.count("UserExists") == 2
    for name in NAMES:
        files, owners = together.held(name)
        assert [*files] == [f"{name.replace('-', '_')}-1.0-py3-none-any.whl"]
        assert set(owners) == {"office", "ann", f"of{name[0]}"}
        # with the token that the user had
        accepted(together.one.request(do="yank", name=name, release="1.0", reason="old", token=f"of{name[0]}{name[0]}"))
    accepted(together.one.request(do="yank", name="frob", release="1.0", reason="older", token="annf"))


@catches("docs/operators/SCALING.md", "indexctl export $port || break", "indexctl export $port || true")
def test_an_index_that_is_away_ends_the_export(together: Together) -> None:
    together.indexes[1].kill()
    together.indexes[1].process.wait()
    together.does(EXPORTS.replace("indexctl export", "indexctl export --again 0"))
    assert os.path.exists(f"{together.folder}/{together.indexes[0].port}/owners.csv")
    assert not os.path.exists(f"{together.folder}/{together.indexes[2].port}")
