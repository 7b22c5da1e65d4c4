"""Somebody who follows the recipes of docs/users/USING.md: a home, a project, and a port of nginx."""
from __future__ import annotations

import os
import shlex
import shutil
import signal
import subprocess
import tempfile
from collections.abc import Callable, Sequence
from contextlib import suppress

from support.clients.page import Recipe
from support.clients.world import ANN, PASSWORD, Gate, World
from support.needed import want_command
from support.running import run_command, write_below
from support.seen import Seen, end_seen, is_ended
from support.server.waits import wait_for
from support.serving import JSON_PAGE

SYSTEM, DEBIAN = "/usr/local/bin:/usr/bin:/bin", "/usr/bin/python3"


def machines_python() -> str:
    """The python3 that is first on PATH, which may be another than Debian's, and has to have pip. A tool such as pyenv
    may have put a script in its place."""
    words = ["python3", "-c", "import sys; print(sys.executable)"]
    found = subprocess.run(words, stdout=subprocess.PIPE, check=True, timeout=60, text=True).stdout.strip()
    want_module(found, "pip", "python3-pip")
    return found


def want_module(python: str, name: str, package: str) -> None:
    """The same as want_command for a module of a Python."""
    if run_command([python, "-c", f"import {name}"]).returncode:
        want_command(f"{python} -m {name}", package)


class Person:
    """A person with a client. Each has a port of its own at nginx, so that its log tells what this client asked."""

    def __init__(self, world: World, looked: Callable, follows: Sequence[str] = (), gate: Gate | None = None) -> None:
        self.world, self.looked, self.gate = world, looked, gate or world.gate
        self.declared = {*follows, "A CA of your own"}
        self.followed: set[str] = set()
        self.folder = tempfile.mkdtemp(dir=world.folder, prefix="person-")
        self.home, self.project = f"{self.folder}/home", f"{self.folder}/project"
        for it in (self.home, self.project):
            os.mkdir(it)
        self.port = self.gate.next_port()
        self.url = f"https://127.0.0.1:{self.port}"
        self.setting = {"HOME": self.home, "PATH": f"{world.bin}:{SYSTEM}", "LC_ALL": "C.UTF-8", "NO_PROXY": "*",
                        "PYTHONDONTWRITEBYTECODE": "1", "PIP_DISABLE_PIP_VERSION_CHECK": "1", "PIP_NO_INPUT": "1",
                        "PYTHON_KEYRING_BACKEND": "keyring.backends.null.Keyring", "TERM": "dumb", "COLUMNS": "400"}
        # what stands on the page is what all others trust by
        self.takes("A CA of your own")

    def enter_environment(self, python: str) -> Person:
        """A virtual environment with the pip of this Python."""
        place = f"{self.folder}/environment"
        self.run([python, "-m", "venv", "--without-pip", "--system-site-packages", place])
        self.setting.update(PATH=f"{place}/bin:{self.setting['PATH']}", VIRTUAL_ENV=place)
        return self

    def filled(self, text: str) -> str:
        """A text of the page with this index in place of packages.example, and with a token and a password."""
        for old, new in {"https://packages.example": self.url, "@packages.example": f"@127.0.0.1:{self.port}",
                         "packages.example": "127.0.0.1", "YOUR-TOKEN": ANN,
                         "/etc/ssl/packages-ca.pem": self.gate.authority, "YOUR-PASSWORD": PASSWORD}.items():
            text = text.replace(old, new)
        return text

    def recipe(self, name: str) -> Recipe:
        recipe = self.world.recipes.get(name)
        assert recipe and recipe.is_tested, f"docs/users/USING.md has no recipe {name!r} that is tested"
        assert name in self.declared, f"the test does not say that it follows {name!r}"
        self.followed.add(name)
        return recipe

    def run(self, words: Sequence[str], seconds: float = 240, **more: str) -> subprocess.CompletedProcess:
        """The end of a command, in the project's folder. What it started ends with it."""
        with subprocess.Popen(words, stdin=subprocess.DEVNULL, stdout=subprocess.PIPE, stderr=subprocess.STDOUT,
                              env={**self.setting, **more}, cwd=self.project, text=True, errors="replace",
                              start_new_session=True) as process:
            try:
                said, _ = process.communicate(timeout=seconds)
            except BaseException:
                with suppress(ProcessLookupError):
                    os.killpg(process.pid, signal.SIGKILL)
                raise
        return subprocess.CompletedProcess(words, process.returncode, said)

    def does(self, name: str, token: str = ANN) -> subprocess.CompletedProcess:
        """The end of the commands of a recipe, with this token in it."""
        return self.run(["bash", "-euc", self.filled(self.recipe(name).text.replace("YOUR-TOKEN", token))])

    def takes(self, name: str, given: str = "") -> None:
        """From now on the environment is as a recipe exports it, whose commands read what is given."""
        script = f"set -a\nexec < <(echo {shlex.quote(given)})\n{self.filled(self.recipe(name).text)}\nenv -0"
        ended = self.run(["bash", "-euc", script])
        pairs = [it.partition("=") for it in ended.stdout.split("\0") if it]
        self.setting.update({key: value for key, _, value in pairs if key not in ("_", "SHLVL", "PWD", "OLDPWD")})

    def writes(self, name: str, token: str = ANN) -> str:
        """Writes the file of a recipe, behind what stands there, with this token in it."""
        recipe = self.recipe(name)
        path = recipe.path.replace("~", self.home) if recipe.path.startswith("~") else f"{self.project}/{recipe.path}"
        os.makedirs(os.path.dirname(path), exist_ok=True)
        with open(path, "a") as made:
            made.write(self.filled(recipe.text.replace("YOUR-TOKEN", token)))
        return path

    def puts(self, path: str, text: str) -> None:
        write_below(self.project, path, text)

    def reads(self, path: str) -> str:
        try:
            with open(f"{self.project}/{path}") as kept:
                return kept.read()
        except OSError as end:
            return repr(end)

    def made(self, folder: str = ".") -> list[str]:
        """The names of the files in a folder of the project."""
        return sorted(os.listdir(f"{self.project}/{folder}")) if os.path.isdir(f"{self.project}/{folder}") else []

    def looks(self, is_well: bool, asked: object, came: object, awaited: object) -> None:
        self.looked(is_well, Seen(asked, came, awaited))

    def succeeds(self, ended: subprocess.CompletedProcess, *said: str) -> None:
        """A command ended well, and said each of these."""
        self.looked(is_ended(ended, True, *said), end_seen(ended, True, *said))

    def fails(self, ended: subprocess.CompletedProcess, *said: str) -> None:
        """A command did not end well, and said each of these."""
        self.looked(is_ended(ended, False, *said), end_seen(ended, False, *said))

    def prints(self, printed: str, code: str = "import frob; print(frob.VERSION)",
               words: Sequence[str] = ("python3",)) -> None:
        """What was installed is this."""
        ended = self.run([*words, "-c", code])
        self.looks(ended.stdout.strip().split("\n")[-1] == printed, code, ended.stdout, f"{printed} in the last line")

    def asked(self, is_there: Callable[[list], object] = bool) -> list:
        """What was asked, once that is there: nginx writes a line behind its reply."""
        wait_for(lambda: is_there(self.gate.asked_at(self.port)))
        return self.gate.asked_at(self.port)

    def gets(self, kind: str, besides: Sequence[str] = ()) -> None:
        """The pages that came were `JSON` or `HTML`, and all was there that was asked for `besides` these paths."""
        def pages_of(asked: list) -> list:
            return [it for it in asked if it[2].startswith("/simple/") and it[0] == "200"]

        pages = pages_of(self.asked(pages_of))
        wanted = JSON_PAGE if kind == "JSON" else "text/html; charset=utf-8"
        self.looks(bool(pages) and all(it[3] == wanted for it in pages), "pages", pages, f"each as {wanted}")
        wrong = [it for it in self.asked() if it[0] not in ("200", "206", "301", "304") and it[2] not in besides]
        self.looks(not wrong, "pages and files", wrong, "nothing that is not there")

    def leave(self) -> None:
        shutil.rmtree(self.folder, ignore_errors=True)
