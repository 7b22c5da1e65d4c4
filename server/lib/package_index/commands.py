"""Other commands that a program runs."""
from __future__ import annotations

import subprocess

from package_index.ends import Refused


class Failed(Refused):
    """A command ended with another status than 0."""

    def __init__(self, text: str, status: int) -> None:
        super().__init__(text)
        self.status = status


def run(*words: str) -> str:
    """What a command prints. Refuses with its status and what it printed if it fails."""
    try:
        ended = subprocess.run(words, stdin=subprocess.DEVNULL, stdout=subprocess.PIPE, stderr=subprocess.STDOUT,
                               text=True, errors="replace", check=False)
    except OSError as end:
        raise Refused(f"{words[0]}: {end.strerror}") from None
    if ended.returncode:
        raise Failed(f"{' '.join(words)}: status {ended.returncode}: {ended.stdout.strip()}", ended.returncode)
    return ended.stdout
