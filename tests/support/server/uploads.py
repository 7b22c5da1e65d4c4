"""`indexctl upload` to an index behind nginx, as a build server runs it."""
from __future__ import annotations

import os
import shutil
import subprocess

from support.packages import make_wheel, wheel_files, wheel_name
from support.places import INDEXCTL
from support.running import run_command
from support.server.front import Front


class Uploads:
    """The command with what it finds in its environment, and `dist`, a folder with three files of the project frob."""

    def __init__(self, front: Front, packages: dict, folder: str):
        self.folder, self.dist = folder, f"{folder}/dist"
        self.setting: dict[str, str | None] = {"INDEX_URL": front.url, "INDEX_CA": front.certificate,
                                               "INDEX_TOKEN": "office"}
        os.mkdir(self.dist)
        for file, (path, _) in packages["frob"].items():
            shutil.copy(path, f"{self.dist}/{file}")

    def words(self, *words: str, **setting: str | None) -> tuple[list[str], dict[str, str]]:
        """The command and its environment. A setting of None is left out."""
        found = {name: value for name, value in {**self.setting, **setting}.items() if value is not None}
        return [*INDEXCTL, "upload", *words], found

    def run(self, *words: str, **setting: str | None) -> subprocess.CompletedProcess:
        command, found = self.words(*words, **setting)
        return run_command(command, **found)

    def wheel(self, name: str, version: str, inside: str | None = None, more: str = "", requires: str = "") -> str:
        """The path of a wheel whose metadata may have another name than the file."""
        path = f"{self.folder}/{wheel_name(name, version)}"
        make_wheel(path, wheel_files(inside or name, version, f'VERSION = "{version}"\n{more}', requires=requires))
        return path
