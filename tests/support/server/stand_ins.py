"""Commands that stand for those of the system, and what they were asked."""
from __future__ import annotations

import os


def stand_ins(folder: str, **scripts: str) -> str:
    """A PATH that begins with a folder of such commands. Each writes its words into the file `called` there."""
    os.makedirs(folder)
    for name, script in scripts.items():
        with open(f"{folder}/{name}", "w") as made:
            made.write(f'#!/bin/sh\necho "{name} $*" >> "{folder}/called"\n{script}\n')
        os.chmod(made.name, 0o755)
    return f"{folder}:{os.environ['PATH']}"


def written(path: str) -> str:
    """The text of a file, or nothing if there is none."""
    try:
        with open(path) as kept:
            return kept.read()
    except FileNotFoundError:
        return ""


def called(folder: str) -> str:
    """A line for each call of the commands in this folder."""
    return written(f"{folder}/called")
