"""The package's postinst on a recording disk, and what a power cut may leave of what it makes.

The root is an overlay of this machine's whose changes are on that disk, and /var is a folder there. dpkg knows of no
other package, so that it reads and writes little."""
from __future__ import annotations

import os
import shutil

from support.cuts_of_files import LATER, told_beside
from support.cuts_of_tools import ROOM, sync_beside, syncs_beside
from support.judge import copy_index, rows_of
from support.power_cuts import Job, Mark
from support.running import run_command
from support.serving import make_index

# runs the script $2 in that root, of which the folder $1 has the changes; nothing stays mounted, which would keep the
# file system
INSIDE = """set -e
mount -t tmpfs none /mnt && mkdir /mnt/root
mount -t overlay overlay -o "lowerdir=/,upperdir=$1/upper,workdir=$1/work" /mnt/root
mount --bind "$1/var" /mnt/root/var && mount --rbind /dev /mnt/root/dev && mount -t tmpfs none /mnt/root/run
status=0; chroot /mnt/root sh -c "$2" || status=$?
umount /mnt/root/run /mnt/root/var && umount -l /mnt/root/dev && umount /mnt/root
exit $status"""
PATH = "/usr/sbin:/usr/bin:/sbin:/bin"
DPKG = "dpkg --force-depends --force-unsafe-io"
EMPTY = ("lib/dpkg/info", "lib/dpkg/updates", "lib/dpkg/triggers", "lib/dpkg/parts", "log", "cache", "backups", "tmp")
CONFIGURE = "dpkg --force-depends --configure --pending"
INSTALLED = "install ok installed"
STATE = "dpkg-query -W -f '${Status}' package-index"
MADE = ("cd /var; stat -c '%U %G %a' lib/index backups/index cache/nginx log/nginx log/package-index "
        "log/package-index/changes.log; "
        "getent passwd index | cut -d : -f 1")
WANTED = "index index 700\nroot root 700\nroot root 755\nroot root 755\nroot adm 751\nwww-data adm 640\nindex\n"


def ended(at: str, script: str) -> str:
    """What this script says in the root of this folder, where it has to succeed."""
    found = run_command(["unshare", "--mount", "--propagation", "private", "sh", "-c", INSIDE, "sh", at, script], 600,
                        PATH=PATH, DEBIAN_FRONTEND="noninteractive", SYSTEMD_OFFLINE="1")
    assert found.returncode == 0, found
    return found.stdout


def configure_job(program: str, folder: str, package: str) -> Job:
    """A package that is unpacked is configured. If dpkg says that it is, all that its script makes is there; and if
    not, another run makes it."""
    new = make_index(program, f"{folder}/new.db")

    def prepare(path: str) -> None:
        copy_index(new, path)
        at = os.path.dirname(path)
        for name in ("upper", "work", *(f"var/{it}" for it in EMPTY)):
            os.makedirs(f"{at}/{name}")
        for name in ("status", "available"):
            with open(f"{at}/var/lib/dpkg/{name}", "w"):
                pass
        shutil.copy(package, f"{at}/var/tmp/index.deb")
        ended(at, f"{DPKG} --unpack /var/tmp/index.deb")

    def drive(path: str, mark: Mark) -> None:
        ended(os.path.dirname(path), CONFIGURE)
        mark()
        sync_beside(path, LATER)

    def beside(path: str, answered: int) -> str:
        at = os.path.dirname(path)
        state = ended(at, STATE)
        if answered and state != INSTALLED:
            return f"the package is {state}"
        if state != INSTALLED:
            ended(at, CONFIGURE)
        made = ended(at, f"{STATE}; echo; {MADE}")
        return "" if made == f"{INSTALLED}\n{WANTED}" else f"it was {state}, and now: {made}"
    rows = rows_of(copy_index(new, f"{folder}/seen.db"))
    return Job("configure", prepare, drive, [rows, rows], room=ROOM, meanwhile=syncs_beside,
               beside=told_beside(beside))
