"""Stand-ins for DRBD, mount and systemctl on one of two machines, which refuse what the real ones refuse."""
from __future__ import annotations

import os
import subprocess
import sys

from support.places import BIN, SERVER
from support.running import run_command
from support.server.stand_ins import called, stand_ins, written

FILES = f"{SERVER}/two-machines"
# a program of server/bin, which reads the mounts of the stand-ins
RUN = """
import runpy, sys
sys.argv.pop(0)
sys.path.insert(0, sys.argv.pop(0))
from package_index import two_machines
two_machines.MOUNTS = sys.argv.pop(0)
runpy.run_path(sys.argv[0], run_name="__main__")
"""
# each stand-in fails, or has a signal sent to who called it, at its turn
TURN = """
cd "$(dirname "$0")" || exit 1
turn=$(grep -c . called)
[ "$turn" = "$(cat fails 2> /dev/null)" ] && { echo "no luck"; exit 1; }
[ "$turn" = "$(cat stops 2> /dev/null)" ] && kill "-$(cat signal)" "$PPID"
"""
DRBDADM = TURN + """
case $1 in
    primary) [ -e peer ] && { echo "(-7) Refusing to be Primary while peer is not outdated"; exit 17; }
             echo Primary > role ;;
    secondary) [ -s mounts ] && { echo "(-12) Device is held open by someone"; exit 11; }
               echo Secondary > role ;;
    sh-dev) [ "$2" = index ] || { echo "'$2' not defined in your config (for this host)."; exit 1; }
            cat devices ;;
    dump) cat dumped ;;
    dstate) cat disks ;;
    role) echo "$(cat role)/Secondary" ;;
esac
"""
MOUNT = TURN + """
[ "$(cat role)" = Primary ] || { echo "mount: /dev/drbd0: Wrong medium type"; exit 32; }
[ -s mounts ] && { echo "mount: already mounted"; exit 32; }
echo "/dev/drbd0 $4 ext4 rw 0 0" > mounts
"""
UMOUNT = TURN + """
[ -e served ] && { echo "umount: $1: target is busy."; exit 32; }
: > mounts
"""
SYSTEMCTL = TURN + """
case $1 in
    start) [ -s mounts ] || { echo "Assertion failed"; exit 1; }
           touch served ;;
    stop) case " $* " in *" index.service "*) rm -f served ;; esac
          # a backup that has stopped the index starts it again as it ends, after the others were stopped
          case "$*" in *index-backup.service*) [ ! -e backs_up ] || { rm backs_up; touch served; } ;; esac ;;
esac
"""
# `drbdsetup show index` of DRBD 8.4.11 with index.res of server/two-machines
SHOWN = """resource index {
    options {
    }
    net {
        timeout         \t20; # 1/10 seconds
        connect-int     \t3; # seconds
        ping-int        \t2; # seconds
        cram-hmac-alg   \t"sha1";
        shared-secret   \t"put a secret of your own here";
        ping-timeout    \t10; # 1/10 seconds
    }
    _remote_host {
        address\t\t\tipv4 10.9.0.2:7788;
    }
    _this_host {
        address\t\t\tipv4 10.9.0.1:7788;
        volume 0 {
            device\t\t\tminor 0;
            disk\t\t\t"/dev/vdb";
            meta-disk\t\t\tinternal;
            disk {
                fencing         \tresource-and-stonith;
                c-min-rate      \t20480k; # bytes/second
            }
        }
    }
}
"""
DUMPED = "resource index {\n    handlers {\n        fence-peer       /etc/drbd.d/index-fence;\n    }\n}\n"
SIGNALS = "HUP", "INT", "TERM"


class Machine:
    """One of two machines. `state` is its role, what is mounted at /var/lib/index, and whether it serves."""

    def __init__(self, folder: str) -> None:
        self.at = f"{folder}/commands"
        # what runs each command, if that is not this program
        self.front: list[str] = []
        self.path = stand_ins(self.at, drbdadm=DRBDADM, drbdsetup=TURN + "cat shown", mount=MOUNT, umount=UMOUNT,
                              systemctl=SYSTEMCTL)
        self.put(shown=SHOWN, dumped=DUMPED, role="Secondary\n", mounts="", disks="UpToDate/UpToDate\n",
                 devices="/dev/drbd0\n")

    def put(self, **texts: str) -> None:
        for name, text in texts.items():
            with open(f"{self.at}/{name}", "w") as made:
                made.write(text)

    def remove(self, *names: str) -> None:
        for name in names:
            if os.path.exists(f"{self.at}/{name}"):
                os.remove(f"{self.at}/{name}")

    def run(self, name: str, *words: str, **setting: str) -> subprocess.CompletedProcess:
        """The end of a command that was given these words; `called` has what it called."""
        self.remove("called")
        return run_command([*self.front, sys.executable, "-c", RUN, f"{SERVER}/lib", f"{self.at}/mounts",
                            f"{BIN}/{name}", *words], PATH=self.path, **setting)

    def called(self) -> list[str]:
        """What was called, but what only reads."""
        reads = "drbdsetup show", "drbdadm sh-dev", "drbdadm dump", "drbdadm dstate", "drbdadm role"
        return [line for line in called(self.at).splitlines() if not line.startswith(reads)]

    def state(self) -> tuple[str, str, bool]:
        return (written(f"{self.at}/role").strip(), written(f"{self.at}/mounts").partition(" ")[0],
                os.path.exists(f"{self.at}/served"))


SERVES = "Primary", "/dev/drbd0", True
LEFT = "Secondary", "", False
