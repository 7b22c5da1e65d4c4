"""The descriptions of projects as HTML, which a process of its own makes. Each is kept in a file by the digest of what
was read."""
from __future__ import annotations

import json
import os
import subprocess
import sys
import threading
import time
from contextlib import suppress
from typing import Any, Iterable, Optional

from indexctl.about import VERSION
from indexctl.ends import WRONG, Stop
from indexctl.page import put_whole
from indexctl.site.about import Description
from indexctl.site.safe import MORE, MOST_HTML, plain

# of a description in characters; of the answer to one in bytes; of one answer in seconds, and of those of a whole run
MOST_TEXT, MOST_ANSWER, PATIENCE, MOST_SECONDS = 100_000, 8 * MOST_HTML, 60.0, 300.0
# what a description that a run had no time for was made by: the next run tries again
LATER = "later"
PROGRAM = "import sys; sys.path.insert(0, sys.argv.pop()); from indexctl.site.rendering import main; main()"
# the folder, or the one file, that has this package
PLACE = os.path.dirname(os.path.dirname(os.path.dirname(os.path.abspath(__file__))))
DESCRIPTIONS = ".descriptions"


class Renderer:
    """The process that makes descriptions into HTML. It is begun again after each that ended it. `by` names what it
    works by, and is empty if that is not there."""

    def __init__(self) -> None:
        self.process: Optional[subprocess.Popen[bytes]] = None
        self.lock, self.spent, self.by = threading.Lock(), 0.0, ""

    def __enter__(self) -> Renderer:
        if os.name == "posix" and sys.executable:
            self.by = self.begin()
        return self

    def __exit__(self, *_: object) -> None:
        self.end()

    def begin(self) -> str:
        """Begins the process, and gives what it works by."""
        words = [sys.executable, "-I", "-c", PROGRAM, PLACE]
        try:
            self.process = subprocess.Popen(words, stdin=subprocess.PIPE, stdout=subprocess.PIPE,
                                            stderr=subprocess.DEVNULL, cwd=os.sep, env={"LC_ALL": "C.UTF-8"})
        except OSError:
            return ""
        found = self.answer()
        return found if isinstance(found, str) else ""

    def end(self) -> None:
        if self.process:
            self.process.kill()
            self.process.communicate()
            self.process = None

    def answer(self) -> Any:
        """What the process answers, or None if it ended, or says nothing for long."""
        assert self.process and self.process.stdout
        timer = threading.Timer(PATIENCE, self.process.kill)
        timer.start()
        try:
            line = self.process.stdout.readline(MOST_ANSWER)
            return json.loads(line) if line.endswith(b"\n") else self.end()
        finally:
            timer.cancel()

    @property
    def has_time(self) -> bool:
        return self.spent < MOST_SECONDS

    def html_of(self, found: Description) -> Optional[str]:
        """A description as HTML, or None if it has to be shown as it is."""
        with self.lock:
            began = time.monotonic()
            try:
                if not self.process and not self.begin():
                    return None
                assert self.process and self.process.stdin
                text = json.dumps({"kind": found.kind, "text": found.text[:MOST_TEXT]})
                self.process.stdin.write(text.encode() + b"\n")
                self.process.stdin.flush()
                made = self.answer()
                return made if isinstance(made, str) else None
            except OSError:
                self.end()
                return None
            finally:
                self.spent += time.monotonic() - began


class Descriptions:
    """The files of a folder of pages that have the descriptions."""

    def __init__(self, folder: str, renderer: Renderer) -> None:
        self.folder, self.renderer = os.path.join(folder, DESCRIPTIONS), renderer
        if os.path.islink(self.folder):
            raise Stop(WRONG, f"{self.folder} is a link: files of another folder would be removed. Remove it.")
        os.makedirs(self.folder, exist_ok=True)
        self.by = f"indexctl {VERSION}, {renderer.by or 'as it is'}"

    def path(self, digest: str) -> str:
        return os.path.join(self.folder, f"{digest}.html")

    def has(self, digest: str, described: str) -> bool:
        """Whether the description that is by `described` need not be made again."""
        return not described or described == self.by and os.path.exists(self.path(digest))

    def put(self, digest: str, found: Description) -> str:
        """Keeps a description as HTML, and gives by what it was made."""
        if not found.text:
            return ""
        by = self.by if self.renderer.has_time or not self.renderer.by else LATER
        made = self.renderer.html_of(found) if self.renderer.by and by != LATER else None
        more = MORE if made and len(found.text) > MOST_TEXT and MORE not in made else ""
        put_whole(self.path(digest), [made or plain(found.text), more], is_synced=False)
        return by

    def html(self, digest: str, described: str) -> str:
        """A description as HTML, which is empty if there is none."""
        with suppress(FileNotFoundError):
            if described:
                with open(self.path(digest), encoding="utf-8") as kept:
                    return kept.read()
        return ""

    def remove_others(self, used: Iterable[str]) -> None:
        for name in set(os.listdir(self.folder)).difference(f"{it}.html" for it in used):
            os.remove(os.path.join(self.folder, name))
