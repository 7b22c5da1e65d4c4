"""A Debian package whose maintainer scripts get a signal before a command of theirs, with all that was started with
dpkg."""
from __future__ import annotations

import os
from subprocess import CompletedProcess

from support.running import run_command
from support.server.machine import Machine

# in front of each script: bash does this before each command. The file has how many are still to come, and the signal
STEPS = """#!/bin/bash
step='read -r left name < /root/stop; echo "$((left - 1)) $name" > /root/stop; [ "$left" != 0 ] || kill -s "$name" 0'
trap "$step" DEBUG
"""
SCRIPTS = "postinst", "prerm", "postrm"
SIGNALS = "KILL", "INT", "TERM", "HUP"
# the library kill_calls on that machine
CALLS = "/root/kill_calls.so"
# dpkg reads the lists of all files of all packages each time
FORGET = "find /var/lib/dpkg/info -name '*.list' ! -name package-index.list -exec truncate --size=0 {} +"
# what dpkg says of a package that was cut off in its midst: it does not go on by itself, and names what helps
REINSTALL = "you should\n reinstall it before attempting configuration"


def stepped(package: str, folder: str, version: int) -> str:
    """This package as that version, with scripts that can be stopped."""
    top, made = f"{folder}/{version}", f"{folder}/stepped_{version}.deb"
    run_command(["dpkg-deb", "--raw-extract", package, top])
    for name, old, new in (("control", "Version: 1\n", f"Version: {version}\n"),
                           *((it, "#!/bin/sh\n", STEPS) for it in SCRIPTS)):
        with open(f"{top}/DEBIAN/{name}", encoding="utf-8") as kept:
            text = kept.read()
        assert text.count(old) == 1, (name, text)
        with open(f"{top}/DEBIAN/{name}", "w", encoding="utf-8") as written:
            written.write(text.replace(old, new))
    ended = run_command(["dpkg-deb", "--root-owner-group", "-Zgzip", "-z1", "--build", top, made])
    assert ended.returncode == 0 and os.path.exists(made), ended
    return made


class Packages:
    """dpkg on a machine, where two versions of the package are at hand."""

    def __init__(self, machine: Machine) -> None:
        self.machine = machine

    def dpkg(self, *words: str, before: int = -1, name: str = "KILL"):
        """How dpkg ends, which may be stopped before a step of the scripts."""
        return self.machine.sh(f"echo {before} {name} > /root/stop; setsid --wait dpkg {' '.join(words)} 2>&1", 300)

    def dpkg_killed_within(self, call: int, *words: str) -> CompletedProcess:
        """How dpkg ends, which is killed before this call of the commands of the scripts, from 0 on."""
        return self.machine.sh(f"echo -1 KILL > /root/stop; echo {call} > /root/call; KILL_AT=/root/call "
                               f"LD_PRELOAD={CALLS} setsid --wait dpkg {' '.join(words)} 2>&1", 300)

    def install(self, version: int, **stop):
        return self.dpkg("--force-unsafe-io", "--install", f"/root/stepped_{version}.deb", **stop)

    def was_stopped(self, by: str = "/root/stop") -> bool:
        """Whether the scripts had that step, or by `/root/call` that call."""
        return int(self.machine.sh(f"cat {by}").stdout.split()[0]) < 0

    def state(self) -> str:
        """What dpkg has noted, which is nothing of a package that is purged."""
        return self.machine.sh("dpkg-query -W -f '${Status} ${Version}' package-index 2> /dev/null").stdout

    def program(self) -> str:
        """What the index runs: the file that is installed, or one that is not there any more."""
        return self.machine.sh("readlink /proc/$(systemctl show -P MainPID index)/exe").stdout.strip()
