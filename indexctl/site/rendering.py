"""A process of its own that makes descriptions into HTML by readme_renderer of PyPA, if it is there. It takes a line of
JSON for each, and gives one back: the HTML, or null. Descriptions are hostile, so it has little memory and time. It is
not run on Windows, which has no such bounds."""
from __future__ import annotations

import contextlib
import importlib
import json
import os
import signal
import sys
from typing import Any, Callable, Dict, Iterator, Optional

from indexctl.site.safe import MOST_HTML, safe

Render = Callable[[str], Optional[str]]
# of the process in bytes, and of one description in seconds of a processor
MOST_MEMORY, MOST_SECONDS = 384 << 20, 3.0
MODULES = {"text/markdown": "markdown", "text/x-rst": "rst"}
# what readme_renderer does its work by
PACKAGES = "readme_renderer", "docutils", "cmarkgfm", "bleach", "nh3", "Pygments"


def renders() -> Dict[str, Render]:
    """What makes HTML of a description, by what that says it is."""
    found: Dict[str, Render] = {}
    for kind, name in MODULES.items():
        with contextlib.suppress(Exception):
            module: Any = importlib.import_module(f"readme_renderer.{name}")
            found[kind] = module.render
    return found


def versions() -> Iterator[str]:
    """The versions of what has a part in it: another one may make other HTML."""
    metadata = importlib.import_module("importlib.metadata")
    for package in PACKAGES:
        with contextlib.suppress(metadata.PackageNotFoundError):
            yield f"{package} {metadata.version(package)}"


def rendered(found: Dict[str, Render], kind: str, text: str) -> Optional[str]:
    """The description as HTML, or None if its renderer does not take it."""
    try:
        made = found[kind](text) if kind in found else None
        return safe(made) if made and len(made) <= 4 * MOST_HTML else None
    except Exception:
        # MemoryError and RecursionError are among what a description can bring about
        return None


def bound() -> None:
    """From here on this process has no more memory than that, and writes no file."""
    resource: Any = importlib.import_module("resource")
    resource.setrlimit(resource.RLIMIT_AS, (MOST_MEMORY, MOST_MEMORY))
    resource.setrlimit(resource.RLIMIT_CORE, (0, 0))
    resource.setrlimit(resource.RLIMIT_FSIZE, (0, 0))


def serve(lines: Iterator[bytes], answer: Callable[[object], None]) -> None:
    """Answers each line. A description that takes too long ends the process: the signal is taken by nobody."""
    found = renders()
    bound()
    answer(", ".join(versions()) if found else "")
    for line in lines:
        asked = json.loads(line)
        signal.setitimer(signal.ITIMER_PROF, MOST_SECONDS)
        made = rendered(found, asked["kind"], asked["text"])
        signal.setitimer(signal.ITIMER_PROF, 0)
        answer(made)


def main() -> None:
    # what a library prints goes nowhere
    with os.fdopen(os.dup(1), "wb") as out, open(os.devnull, "wb") as nowhere:
        os.dup2(nowhere.fileno(), 1)

        def answer(made: object) -> None:
            out.write(json.dumps(made).encode() + b"\n")
            out.flush()
        serve(iter(sys.stdin.buffer), answer)
