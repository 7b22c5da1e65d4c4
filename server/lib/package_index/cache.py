"""nginx's caches: where a file is, and how one is emptied."""
from __future__ import annotations

import glob
import hashlib
import os
import re
from contextlib import suppress

from package_index.names import normal


def place_of_file(cache: str, project: str, file: str) -> str:
    """Where nginx keeps a file of a project: by the MD5 of its address, in folders of the last character and the two
    before. The index has it under this spelling of its name alone."""
    digest = hashlib.md5(f"/files/{normal(project)}/{file}".encode()).hexdigest()
    return f"{cache}/{digest[-1]}/{digest[-3:-1]}/{digest}"


def empty_cache(folder: str) -> None:
    """Removes what nginx keeps in a folder, by the form of its names, and nothing else."""
    kept = re.compile(re.escape(folder) + r"/[0-9a-f]/[0-9a-f]{2}/[0-9a-f]{32}(\.\d+)?")
    for path in glob.glob(f"{glob.escape(folder)}/*/*/*"):
        # (nginx removes some by itself meanwhile)
        with suppress(FileNotFoundError):
            if kept.fullmatch(path):
                os.remove(path)
