"""A Debian 12 with nothing but what the README asks for, in a folder: the kit, `cc`, and Python 3 with pip."""
from __future__ import annotations

import os
import resource
import subprocess
import time
from dataclasses import dataclass

from support.places import TOP

MIRROR = "http://deb.debian.org/debian"
# (ca-certificates: a mirror may be reached by https alone)
PACKAGES = "gcc", "libc6-dev", "python3", "python3-pip", "python3-venv", "ca-certificates"
KIT, USER = "/opt/rattle", "you"
# nobody else's processes and mounts are seen inside, and none is left
ENTER = """root=$1 user=$2 index=$3 command=$4
mount --bind {kit} "$root{kit}" && mount -o remount,bind,ro "$root{kit}" &&
mount -t proc proc "$root/proc" && mount --rbind /sys "$root/sys" &&
mount --rbind /dev "$root/dev" && mount -t tmpfs tmpfs "$root/dev/shm" || exit
PATH=/usr/local/bin:/usr/bin:/bin home=/home/$user
[ "$user" != root ] || PATH=/usr/local/sbin:$PATH:/usr/sbin:/sbin home=/root
exec env -i PATH="$PATH" HOME="$home" LC_ALL=C.UTF-8 PIP_INDEX_URL="$index" /usr/sbin/chroot \\
    --userspec="$user:$user" "$root" bash -c "cd ~/index && exec $command"
""".format(kit=KIT)


@dataclass(frozen=True)
class Done:
    """How a command ended: with its output, minutes by the clock and of processors, and the load at its end."""
    status: int
    output: str
    clock: float
    processors: float
    load: float


def make_root(folder: str) -> str:
    """Makes the Debian, with a clone of the repository in the home of each user."""
    root = f"{folder}/root"
    subprocess.run(["mmdebstrap", "--quiet", "--variant=minbase", f"--include={','.join(PACKAGES)}", "bookworm", root,
                    MIRROR], check=True)
    os.makedirs(f"{root}{KIT}")
    os.symlink(f"{KIT}/bin/rt", f"{root}/usr/local/bin/rt")
    for name in ("resolv.conf", "hosts"):
        subprocess.run(["cp", f"/etc/{name}", f"{root}/etc/{name}"], check=True)
    subprocess.run(["chroot", root, "useradd", "--create-home", "--shell", "/bin/bash", USER], check=True)
    for home in (f"home/{USER}", "root"):
        subprocess.run(["git", "clone", "--quiet", TOP, f"{root}/{home}/index"], check=True)
    subprocess.run(["chroot", root, "chown", "--recursive", f"{USER}:{USER}", f"/home/{USER}"], check=True)
    return root


def done(root: str, user: str, index: str, command: str, seconds: int) -> Done:
    """Runs a command in the clone of a user. `index` is where pip looks."""
    before, begun = resource.getrusage(resource.RUSAGE_CHILDREN), time.monotonic()
    ended = subprocess.run(["unshare", "--mount", "--pid", "--fork", "--kill-child", "--propagation", "private", "bash",
                            "-c", ENTER, "bash", root, user, index, command], stdin=subprocess.DEVNULL, text=True,
                           stdout=subprocess.PIPE, stderr=subprocess.STDOUT, timeout=seconds)
    after = resource.getrusage(resource.RUSAGE_CHILDREN)
    used = after.ru_utime + after.ru_stime - before.ru_utime - before.ru_stime
    return Done(ended.returncode, ended.stdout, (time.monotonic() - begun) / 60, used / 60, os.getloadavg()[0])
