"""Calls of the system that fail, by the preloaded library fail_calls."""
import errno
import struct
from dataclasses import dataclass

from support.running import built
from support.volumes import VOLUME

KINDS = ("open", "pread", "pwrite", "fsync", "fdatasync", "ftruncate", "read", "write", "recv", "send", "accept")
FILE_KINDS, STREAM_KINDS, PEER_KINDS = KINDS[:6], KINDS[6:8], KINDS[8:]
FAILED, COUNTS = 15, 16
# what a second line may tell where such a call failed, or one failed so; a store that this shut is told as shut
FAILED_DISK, FULL, SHUT = "the disk failed", "the disk or the file is full", "shut by an earlier failure of the disk"
BESIDE = "it opens, but not with the log or journal beside it"
NO_RIGHT, NOT_MADE = "no right to read and write it", "no such file, and none could be made"
CAUSES = {
    "open": (BESIDE, NO_RIGHT, NOT_MADE),
    "fsync": (BESIDE,),
    "ENOSPC": (FULL, SHUT),
}
# an interrupted call is tried again, and so it fails once
ONCE_ONLY = ("EINTR",)
HOWS = {
    "open": ("EIO", "EMFILE", "ENOSPC", "EACCES", "EINTR"),
    "pread": ("EIO", "short", "EINTR"),
    "pwrite": ("EIO", "ENOSPC", "short", "none", "EINTR"),
    "fsync": ("EIO", "ENOSPC"),
    "fdatasync": ("EIO", "ENOSPC"),
    "ftruncate": ("EIO", "ENOSPC"),
    "read": ("EIO", "short", "EINTR"),
    "write": ("EIO", "ENOSPC", "short", "none", "EINTR"),
    "recv": ("ECONNRESET", "ETIMEDOUT", "short", "EINTR"),
    "send": ("ECONNRESET", "EPIPE", "short", "none", "EINTR"),
    "accept": ("EMFILE", "ENFILE", "ECONNABORTED", "ENOBUFS", "EINTR"),
}


@dataclass(frozen=True)
class Fault:
    """The call of this kind with this number fails so, or does a part: once, from then on, or for so many
    milliseconds."""
    kind: str
    at: int
    how: str
    is_lasting: bool
    milliseconds: int = 0

    def __str__(self):
        once = f"for {self.milliseconds} ms" if self.milliseconds else "once"
        return f"{self.kind} {self.at} {self.how} {'from then on' if self.is_lasting else once}"

    def may_be_told(self, said, path):
        """Whether these lines tell of it as `Store`, and of no cause on a second line, or of one that it may have."""
        causes = CAUSES.get(self.kind) or CAUSES.get(self.how, (FAILED_DISK, SHUT))
        second = [f"index: {subject}: {cause}\n" for subject in (path, path + VOLUME) for cause in causes]
        return said.decode() in ("index: Store\n", *(f"index: Store\n{line}" for line in second))

    def is_harmless(self):
        """Whether nothing is lost by it: less was done than was asked for, or the call was interrupted."""
        return self.how in ("short", "EINTR")


class Failing:
    """The library, and the file by which it tells how many calls were made."""

    def __init__(self, folder):
        self.library, self.path = built("fail_calls", folder), f"{folder}/counts"

    def setting(self, under, fault=None):
        """What makes a program fail so that is started next, and counts its calls of files below a folder."""
        with open(self.path, "wb") as counts:
            counts.write(bytes(8 * COUNTS))
        more = {"LD_PRELOAD": self.library, "FAIL_COUNTS": self.path, "FAIL_UNDER": under}
        if fault:
            how = fault.how if fault.how in ("short", "none") else str(getattr(errno, fault.how))
            more |= {"FAIL_KIND": str(KINDS.index(fault.kind)), "FAIL_AT": str(fault.at), "FAIL_HOW": how}
            more |= {"FAIL_ON": "1"} if fault.is_lasting else {}
            more |= {"FAIL_FOR": str(fault.milliseconds)} if fault.milliseconds else {}
        return more

    def counted(self):
        """By kind how many calls were made, and under `failed` how many of them were made to fail."""
        with open(self.path, "rb") as counts:
            numbers = struct.unpack(f"{COUNTS}Q", counts.read())
        return {**dict(zip(KINDS, numbers)), "failed": numbers[FAILED]}


def faults_of(kind: str, calls: int) -> list[Fault]:
    """Each fault of a run that makes so many calls of this kind."""
    return [Fault(kind, at, how, is_lasting) for at in range(1, calls + 1) for how in HOWS[kind]
            for is_lasting in ((False,) if how in ONCE_ONLY else (False, True))]
