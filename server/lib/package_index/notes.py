"""What index-punch notes of its last run."""
from __future__ import annotations

import json
import os
from contextlib import suppress
from typing import NamedTuple, Optional

from package_index.disk import put_whole

# in the folder of its notes
NOTE = "last"


class Last(NamedTuple):
    """What is noted of the last punch: when it began to copy the database; how many bytes the volume then had above the
    last place, which may be an upload's; and how many of deleted files could not be given back, since the file system
    has no holes."""
    began: float
    above: int
    kept: int


def last_of(folder: str) -> Optional[Last]:
    """What is noted in a folder, or None if nothing can be read."""
    try:
        with open(f"{folder}/{NOTE}", encoding="utf-8") as kept:
            said = json.load(kept)
            return Last(float(said["began"]), int(said["above"]), int(said["kept"]))
    except (FileNotFoundError, NotADirectoryError, ValueError, KeyError, TypeError):
        return None


def keep_last(folder: str, last: Last) -> None:
    put_whole(f"{folder}/{NOTE}", json.dumps(last._asdict()))


def forget_last(folder: str) -> None:
    """Without a volume nothing is noted."""
    with suppress(FileNotFoundError):
        os.remove(f"{folder}/{NOTE}")
