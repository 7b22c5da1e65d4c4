"""Files on the disk: whether there is room for them, copies, and that they are there after a loss of power."""
from __future__ import annotations

import errno
import os
import re
import shutil
from typing import Optional

from package_index.commands import run
from package_index.ends import Refused

# four of the largest uploads: the index goes on to write meanwhile
SPARE = 64 << 20


def bytes_needed(written: int) -> int:
    """The room that has to be free before so many bytes are written: a tenth more, or SPARE if that is more."""
    return written + max(written // 10, SPARE)


def want_room(folder: str, written: int, advice: str = "make room first") -> None:
    """Refuses if writing so many bytes into this folder might fill its disk. Uploads fail if the database is there."""
    free = shutil.disk_usage(folder).free
    if free < bytes_needed(written):
        raise Refused(f"{folder} has room for {free} bytes, and this needs {bytes_needed(written)}: {advice}")


def is_there(path: str) -> bool:
    """Whether there is a file of this name. A disk that can't tell is an OSError: os.path.exists calls all absent that
    can't be read."""
    try:
        os.stat(path)
    except (FileNotFoundError, NotADirectoryError):
        return False
    return True


def takes_no_writes(folder: str, mounts: str = "/proc/self/mountinfo") -> bool:
    """Whether the file system of a folder is read-only as a whole, as ext4 makes it after an error of its disk. (A
    mount of it may be so for one unit alone, and says nothing of that.)"""
    folder, deepest, options = os.path.realpath(folder), "", ""
    with open(mounts, encoding="utf-8", errors="replace") as listed:
        for line in listed:
            at = re.sub(r"\\([0-7]{3})", lambda it: chr(int(it[1], 8)), line.split()[4])
            is_below = at == "/" or folder == at or folder.startswith(f"{at}/")
            if is_below and len(at) >= len(deepest):
                deepest, options = at, line.split()[-1]
    return not {"ro", "emergency_ro", "shutdown"}.isdisjoint(options.split(","))


def sync(path: str) -> None:
    """Waits until a file, or the names in a folder, are on the disk."""
    opened = os.open(path, os.O_RDONLY)
    try:
        os.fsync(opened)
    except OSError as end:
        # so answers a file system that syncs no folder
        if end.errno != errno.EINVAL:
            raise
    finally:
        os.close(opened)


def put_there(made: str, path: str) -> None:
    """Gives a file this name for good. If the disk can't keep that, it has none."""
    os.replace(made, path)
    try:
        sync(os.path.dirname(path))
    except OSError:
        os.remove(path)
        raise


def own(folder: str) -> str:
    """A path to a folder of this user, which leads there whatever becomes of its name, as long as this program runs.
    Whoever may write beside it could put a link in its place, and have root write elsewhere. Refuses what they put."""
    opened = os.open(folder, os.O_RDONLY | os.O_DIRECTORY | os.O_NOFOLLOW)
    if os.fstat(opened).st_uid != os.geteuid():
        os.close(opened)
        raise Refused(f"{folder}: another user has put it there")
    return f"/proc/{os.getpid()}/fd/{opened}"


def made_own(folder: str) -> str:
    """The same, of a folder that is made, and that nobody else enters."""
    os.mkdir(folder, 0o700)
    return own(folder)


def put_whole(path: str, text: str, mode: Optional[int] = None) -> None:
    """Puts a file there as a whole: a reader sees what was there, or all of this. With a mode it gets that one."""
    with open(f"{path}.part", "w", encoding="utf-8") as made:
        made.write(text)
    if mode is not None:
        os.chmod(f"{path}.part", mode)
    os.replace(f"{path}.part", path)


def copy(source: str, target: str, *options: str) -> None:
    """A copy that shares blocks if the file system can, and is on the disk."""
    run("cp", "--reflink=auto", *options, source, target)
    sync(target)
