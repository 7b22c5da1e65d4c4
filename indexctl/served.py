"""Whether what stands in front of the index still gives a file that the index has no more."""
from __future__ import annotations

import time
from typing import Dict, Sequence

from indexctl.changes import Desk
from indexctl.ends import Stop
from indexctl.names import project_of
from indexctl.terminal import note
from indexctl.transport import Index, Request
from package_index.names import file_path

# index-uncache-follow takes a file out of nginx's cache within a second
SECONDS, PAUSE = 3.0, 0.25
GIVEN, GONE = (200, 206), 404


def statuses_of(index: Index, files: Sequence[str]) -> Dict[str, int]:
    """The status at the address of each file. Those that still go out are asked for again for some seconds."""
    until, found = time.monotonic() + SECONDS, dict.fromkeys(files, GIVEN[0])
    while True:
        for file in (it for it, status in found.items() if status in GIVEN):
            found[file] = index.ask(file, Request("HEAD", file_path(project_of(file), file))).status
        if time.monotonic() > until or not any(it in GIVEN for it in found.values()):
            return found
        time.sleep(PAUSE)


def tell_served(desk: Desk, files: Sequence[str]) -> None:
    """Says of each file that was banned or prohibited whether its address still gives it."""
    url = desk.setting.url
    try:
        found = statuses_of(desk.index, files) if files else {}
    except Stop as end:
        note(f"Whether {url} still serves it can't be seen: {end}", "yellow")
        return
    for file, status in found.items():
        row = {"do": "look", "file": file, "status": status, "served": status in GIVEN if known(status) else None}
        if status == GONE:
            desk.say(f"{file}: {url} serves it no more", row)
            continue
        if desk.is_json:
            desk.say("", row)
        how = ("still serves it, out of nginx's cache. Run its index-uncache line on the server." if known(status) else
               f"may still serve it: it answers {status}.")
        note(f"{file}: {url} {how}", "yellow")


def known(status: int) -> bool:
    """Whether a status says that a file goes out, or that it does not."""
    return status == GONE or status in GIVEN
