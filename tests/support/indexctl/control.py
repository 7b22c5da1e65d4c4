"""indexctl as people run it: each with a token of their own and an empty home, against one address."""
from __future__ import annotations

import json
import os
import sqlite3
import subprocess
from contextlib import closing
from typing import Any, Dict, Iterable, Iterator, List, Optional, Tuple

from support.places import INDEXCTL
from support.serving import make_index, sha256

PATIENCE, DAY = 60, 86_400
Ended = subprocess.CompletedProcess


def environment(**setting: Optional[str]) -> Dict[str, str]:
    """An environment in which nothing of ours changes indexctl but this setting."""
    def is_kept(name: str) -> bool:
        return not name.startswith(("index_", "python")) and not name.endswith("_proxy") and name != "no_color"
    clean = {name: value for name, value in os.environ.items() if is_kept(name.lower())}
    clean.update(LC_ALL="C.UTF-8", PYTHONDONTWRITEBYTECODE="1")
    return {**clean, **{name: value for name, value in setting.items() if value is not None}}


class Control:
    """indexctl for one address. A caller's token is the caller's name, unless it was given another."""

    def __init__(self, folder: str, url: Optional[str], certificate: Optional[str] = None,
                 **setting: Optional[str]) -> None:
        self.home = f"{folder}/home"
        os.makedirs(self.home, exist_ok=True)
        self.setting = {"INDEX_URL": url, "INDEX_CA": certificate, "HOME": self.home, **setting}

    def start(self, *words: str, caller: str = "office", streams: Any = None, limit: Any = None,
              **setting: Optional[str]) -> subprocess.Popen[str]:
        """A run that is under way. `limit` is called in it before it begins."""
        env = environment(**{"INDEX_TOKEN": caller, **self.setting, **setting})
        streams = {"stdin": subprocess.DEVNULL, "stdout": subprocess.PIPE, "stderr": subprocess.PIPE, **(streams or {})}
        return subprocess.Popen([*INDEXCTL, *words], env=env, text=True, errors="replace", preexec_fn=limit, **streams)

    def run(self, *words: str, caller: str = "office", given: Optional[str] = None, limit: Any = None,
            **setting: Optional[str]) -> Ended[str]:
        """The end of a run, with its errors behind its output."""
        streams = {} if given is None else {"stdin": subprocess.PIPE}
        with self.start(*words, caller=caller, streams=streams, limit=limit, **setting) as process:
            try:
                out, errors = process.communicate(given, timeout=PATIENCE)
            except BaseException:
                process.kill()
                raise
        return subprocess.CompletedProcess(words, process.returncode, f"{out}{errors}", errors)

    def rows(self, *words: str, caller: str = "office", **setting: Optional[str]) -> Any:
        """What a listing prints as JSON."""
        return rows_in(self.run(*words, "--json", caller=caller, **setting))


def rows_in(ended: Ended[str]) -> Any:
    """What a run printed as JSON."""
    try:
        return json.loads(ended.stdout[:len(ended.stdout) - len(ended.stderr)])
    except ValueError:
        raise AssertionError(f"{told(ended)} has no JSON") from None


def told(ended: Ended[str]) -> str:
    """A run, as a failure tells it."""
    return f"`indexctl {' '.join(ended.args)}` ended with {ended.returncode} and said:\n{ended.stdout[-2_000:]}\n"


def assert_ends(ended: Ended[str], status: int, *said: str) -> None:
    """A command ended with this status, said each of these, and no traceback."""
    missing = [text for text in said if text not in ended.stdout]
    assert ended.returncode == status, f"{told(ended)}the status {status} was awaited"
    assert not missing, f"{told(ended)}these were awaited: {missing}"
    assert "Traceback" not in ended.stdout, told(ended)


def digest(token: str) -> str:
    return str(sha256(token.encode()))


def filled(program: str, path: str, lines: Iterable[Dict[str, object]]) -> str:
    """A new index in this file, on which these lines were applied."""
    make_index(program, path)
    text = "".join(f"{json.dumps(it)}\n" for it in lines).encode()
    ended = subprocess.run([program, "apply", "--db", path], input=text, stdout=subprocess.PIPE, timeout=PATIENCE)
    others = set(ended.stdout.split()) - {b'{"answer":"accepted"}'}
    assert not others, f"a line was not accepted: {others}"
    return path


def rows_of(path: str, query: str) -> List[Tuple[Any, ...]]:
    """The rows that a query finds in a database that no program has open."""
    with closing(sqlite3.connect(path)) as database:
        return database.execute(query).fetchall()


def line(at: int, token: str, do: str, **row: object) -> Dict[str, object]:
    """A line that `index apply` reads."""
    return {"at": at, "token": token, "do": do, **row}


def user_lines(*users: str) -> Iterator[Dict[str, object]]:
    """Lines that add these users, each with a token that is the id."""
    for user in users:
        yield line(1, "office", "add_user", user=user, office=False, token_sha256=digest(user))


def upload_line(at: int, token: str, file: str, size: int) -> Dict[str, object]:
    """A line that uploads a file of zeros."""
    body = bytes(size)
    return line(at, token, "upload", file=file, sha256=sha256(body), hex=body.hex(), requires_python="")


def put(path: str, text: str, mode: int = 0o600) -> str:
    """Writes a file with this mode."""
    os.makedirs(os.path.dirname(path), exist_ok=True)
    with open(path, "w", encoding="utf-8") as made:
        made.write(text)
    os.chmod(path, mode)
    return path
