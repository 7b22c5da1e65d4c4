"""A Debian package, and its life: installed, upgraded, taken back, with one more index, removed and purged.

That is done in a root of its own, which has all that this machine has: an overlay in a mount namespace, gone at the
end. Each step is taken once, in this order, and leaves what was seen."""
from __future__ import annotations

import functools
import json
import os
import re
import subprocess
import sys
import time
from subprocess import CompletedProcess

from support.places import TOP
from support.running import run_command
from support.server.pasted import block

PATH = "/usr/local/bin:/usr/sbin:/usr/bin:/sbin:/bin"
# In this root systemd does not run. What the pages ask of it is written down; a unit that is started once is run.
SYSTEMCTL = r"""#!/bin/sh
echo "systemctl $*" >> /systemctl.log
if [ "$1" = start ] && grep -qs Type=oneshot "/lib/systemd/system/$2"; then
    eval "$(sed -n 's/^ExecStart=//p' "/lib/systemd/system/$2")"
fi
"""
# where nginx writes down what was changed
CHANGES = "/var/log/package-index/changes.log"
# of the program, and of its command line before any
WORDS = ("", "init", "serve", "apply", "report", "check")
MOUNTS = """set -e
mount -t tmpfs none "$1"
mkdir "$1/upper" "$1/work" "$1/root"
mount -t overlay overlay -o "lowerdir=/,upperdir=$1/upper,workdir=$1/work" "$1/root"
mount --rbind /proc "$1/root/proc"
mount --rbind /dev "$1/root/dev"
mount -t tmpfs none "$1/root/run"
echo ready
exec sleep 3600
"""


class Root:
    """A root of its own. `is_there` tells whether this machine lets us make one."""

    def __init__(self, folder: str) -> None:
        os.mkdir(folder)
        self.root = f"{folder}/root"
        words = ["unshare", "--mount", "--propagation", "private", "sh", "-c", MOUNTS, "sh", folder]
        self.holder = subprocess.Popen(words, stdout=subprocess.PIPE, stderr=subprocess.DEVNULL, text=True)

    def __enter__(self) -> Root:
        self.is_there = self.holder.stdout.readline() == "ready\n"
        return self

    def __exit__(self, *_: object) -> None:
        self.holder.kill()
        self.holder.wait()
        self.holder.stdout.close()

    def run(self, *words: str, seconds: float = 600, **more: str) -> CompletedProcess:
        inner = ["nsenter", f"--target={self.holder.pid}", "--mount", "--", "chroot", self.root]
        return run_command([*inner, *words], seconds, PATH=PATH, DEBIAN_FRONTEND="noninteractive", **more)

    def sh(self, script: str, **more: str) -> CompletedProcess:
        return self.run("bash", "-c", script, **more)

    def put(self, path: str, text: str, mode: str = "644") -> None:
        self.sh(f'printf %s "$TEXT" > {path} && chmod {mode} {path}', TEXT=text)


def make_package(program: str, folder: str, *more: str, **setting: str) -> CompletedProcess:
    """How tools/package ends on this program, which may be one that is not proved. Its last line is the package."""
    words = [sys.executable, f"{TOP}/tools/package", "--program", program, "--out", folder, "--version", "1", *more]
    return run_command(words, 500, SOURCE_DATE_EPOCH="4000000000", **setting)


def make_newer(package: str, folder: str) -> str:
    """This package as the next version, with other files for nginx."""
    top, newer = f"{folder}/newer", f"{folder}/package-index_2_amd64.deb"
    run_command(["dpkg-deb", "--raw-extract", package, top])
    for path, old, new in (("DEBIAN/control", "Version: 1\n", "Version: 2\n"),
                           ("etc/nginx/index/indexes.conf", "", "# of the next version\n"),
                           ("etc/nginx/index/kept-pages.conf", "", "# of the next version\n")):
        with open(f"{top}/{path}") as kept:
            text = kept.read()
        with open(f"{top}/{path}", "w") as made:
            made.write(text.replace(old, new) if old else text + new)
    ended = run_command(["dpkg-deb", "--root-owner-group", "-Zgzip", "-z1", "--build", top, newer])
    if ended.returncode:
        raise SystemExit(f"dpkg-deb ended with {ended.stdout}")
    return newer


class Life:
    """What was seen of a package in a root of its own, step by step. Each step takes those before it."""

    def __init__(self, root: Root, first: str, newer: str, certificate: str) -> None:
        self.root, self.first, self.newer, self.certificate = root, first, newer, certificate

    @functools.cached_property
    def installed(self) -> dict:
        """Installed and set up as the page says."""
        root = self.root
        root.put("/usr/local/bin/systemctl", SYSTEMCTL, "755")
        # a person is asked about files that both have changed; here nobody is, and ours stay
        root.put("/etc/dpkg/dpkg.cfg.d/zz-test", "force-confold\nforce-unsafe-io\n")
        # else the index of all man pages of this machine is made each time
        root.sh("rm -f /var/lib/man-db/auto-update")
        # the database has a disk of its own, and nginx has no log of changes yet
        root.sh("mkdir -p /var/lib/index && mount -t tmpfs -o mode=755,size=200m none /var/lib/index; "
                f"rm -f {CHANGES}")
        # the newer one of two is installed
        root.sh(f"mkdir /debs; cp {self.first} /debs/package-index_10_amd64.deb; touch /debs/package-index_9_amd64.deb")
        words = block('apt-get install "./$(ls').replace("install", "install --yes --no-install-recommends")
        seen = {"apt": root.sh(f"cd /debs; {words}")}
        seen["modes"] = root.sh("stat -c '%U %a' /var/lib/index /var/backups/index && stat -c %a /var/cache/nginx")
        seen["log"] = root.sh(f"stat -c '%U %G %a' {CHANGES}").stdout
        made = block("office=$(openssl rand -hex 32)\nrunuser")
        seen["init"] = root.sh(made + "printf %s $office > /office")
        seen["init again"] = root.sh(made)
        with open(self.certificate) as kept, open(f"{os.path.dirname(self.certificate)}/key") as key:
            root.put("/etc/ssl/packages.example.pem", kept.read())
            root.put("/etc/ssl/packages.example.key", key.read())
        seen["nginx"] = root.sh("nginx -v && " + block("host=packages.example")
                                + "nginx -T | grep 'server_name packages'")
        # once more with no room where the file is made
        root.sh("tar -C /etc/nginx -cf /conf.tar . && mount -t tmpfs -o size=1m none /etc/nginx && "
                "tar -C /etc/nginx -xf /conf.tar; head -c 2m /dev/zero > /etc/nginx/zeros")
        seen["full"] = root.sh(block("host=packages.example")
                               + "cat /etc/nginx/conf.d/packages.conf; umount /etc/nginx")
        units = "/lib/systemd/system/index*"
        instances = f"$(ls {units} | grep @ | grep -v alarm | sed s/@/@8081/)"
        seen["verify"] = root.sh(f"systemd-analyze verify $(ls {units} | grep -v @) {instances}")
        # one reads the log of changes, by the group adm; one reaches machines elsewhere, for the keys of issuers
        most = "$(case $it in */index-site.*) echo 10;; */index-publishers.*) echo 11;; *) echo 9;; esac)"
        seen["security"] = root.sh(f"for it in {units}.service; do echo $it; systemd-analyze security --offline=true "
                                   f"--threshold={most} $it || echo FAR; done")
        seen["uses"] = root.sh("for it in $(dpkg -L package-index | grep ^/usr/bin/); do "
                               "$it --help > /dev/null || echo $it; done")
        library = "/usr/lib/python3/dist-packages/package_index"
        seen["library"] = root.sh(f"ls -d {library} && ls {library}/__pycache__ | grep -c pyc")
        seen["completed"] = {word: self.completed(word) for word in WORDS}
        return seen

    def completed(self, word: str) -> set:
        """The words that the completion of bash gives behind this one."""
        script = ("source /usr/share/bash-completion/completions/index; COMP_WORDS=(index $WORD ''); "
                  "COMP_CWORD=$NUMBER; _index; echo ${COMPREPLY[*]}")
        return set(self.root.sh(script, WORD=word, NUMBER="2" if word else "1").stdout.split())

    def apply(self, **request: object) -> CompletedProcess:
        """A request of the office, by the program as it is installed. The index does not serve meanwhile."""
        line = json.dumps({**request, "at": int(time.time()), "token": self.root.sh("cat /office").stdout})
        return self.root.sh('printf "%s\\n" "$LINE" | runuser -u index -- index apply --db /var/lib/index/index.db',
                            LINE=line)

    def held(self) -> str:
        return self.root.sh("runuser -u index -- index report --db /var/lib/index/index.db").stdout

    def version(self) -> str:
        return self.root.sh("dpkg-query -W -f '${Version}' package-index").stdout

    @functools.cached_property
    def upgraded(self) -> dict:
        """Tried on a copy, upgraded and taken back as the page says."""
        assert self.installed
        root, seen = self.root, {"before": self.apply(do="claim", name="before")}
        root.sh("echo '# mine' >> /etc/nginx/index/indexes.conf")
        tries = block("new=")
        seen["checked"] = root.sh(tries.replace("./package-index_NEW_amd64.deb", self.newer))
        seen["left"] = root.sh("ls /var/backups/index").stdout.split()
        seen["torn"] = root.sh(tries.replace("./package-index_NEW_amd64.deb", "/none.deb"))
        words = block('apt-get install "$new"').replace("install", "install --yes")
        # as nginx made it before there was a package; and systemd runs (apt looks for commands in fewer places)
        root.sh(f"chown root:root {CHANGES}; chmod 644 {CHANGES}; rm -f /systemctl.log; mkdir -p /run/systemd/system; "
                "cp /usr/local/bin/systemctl /usr/bin/systemctl")
        seen["apt"], seen["version"] = root.sh(f"new={self.newer}\n{words}"), self.version()
        seen["asked"] = root.sh("cat /systemctl.log; rmdir /run/systemd/system").stdout
        seen["log"] = root.sh(f"stat -c '%U %G %a' {CHANGES}").stdout
        seen["held"] = self.held()
        seen["conf"] = root.sh("tail -n 1 /etc/nginx/index/indexes.conf /etc/nginx/index/kept-pages.conf").stdout
        seen["after"] = self.apply(do="claim", name="after")
        words = block("apt-get install --allow-downgrades").replace("./package-index_OLD_amd64.deb", self.first)
        seen["back"], seen["old version"] = root.sh(words.replace("install", "install --yes")), self.version()
        seen["held by both"] = self.held()
        return seen

    @functools.cached_property
    def moved(self) -> dict:
        """The copies go to another disk by the block of the page, first to one that is full."""
        assert self.upgraded
        root, moves = self.root, block("mkdir -p -m 700 /mnt/backups/index")
        shown = "readlink /var/backups/index; ls /var/backups/index/"
        seen = {"there": set(root.sh("ls /var/backups/index/").stdout.split())}
        root.sh("mkdir -p /mnt/backups; mount -t tmpfs -o size=8k none /mnt/backups\n" + moves + "umount /mnt/backups")
        seen["left"] = root.sh(shown).stdout.split()
        seen["ended"], seen["found"] = root.sh(moves), root.sh(shown).stdout.split()
        # the disk is off
        seen["off"] = root.sh(f"mv /mnt/backups /mnt/off; dpkg --install {self.first}")
        seen["on"] = root.sh(f"mv /mnt/off /mnt/backups; {shown}").stdout.split()
        return seen

    def size(self) -> int:
        """The bytes of the database, or 0 if there is none."""
        said = self.root.sh("stat -c %s /var/lib/index/index.db").stdout.strip()
        return int(said) if said.isdigit() else 0

    @functools.cached_property
    def several(self) -> dict:
        """A database whose files' bytes were moved into it is shrunk, and one more index is made beside it."""
        assert self.moved
        root = self.root
        root.sh("index-migrate --one-file /var/lib/index/index.db")
        root.sh("runuser -u index -- sqlite3 /var/lib/index/index.db 'CREATE TABLE x (y)' 'INSERT INTO x VALUES "
                "(zeroblob(1000000))' 'DROP TABLE x'")
        seen = {"before": self.size()}
        seen["shrunk"] = root.sh("index-reseal /var/lib/index/index.db /sealed.db && install -o index -g index -m 600 "
                                 "/sealed.db /var/lib/index/index.db")
        seen["after"], seen["held"] = self.size(), self.held()
        other = block("office=$(openssl rand -hex 32) port=8081")
        seen["other"], seen["other again"] = root.sh(other), root.sh(other)
        seen["modes"] = root.sh("stat -c '%U %a' /var/lib/index/8081 /var/lib/index/8081/index.db").stdout
        seen["asked"] = root.sh("cat /systemctl.log").stdout
        return seen

    @functools.cached_property
    def removed(self) -> dict:
        """Removed, and then purged."""
        assert self.several
        root = self.root
        there = "ls /usr/bin/index /lib/systemd/system/index.service /etc/nginx/index/indexes.conf 2> /dev/null"
        listed = "cd /lib/systemd/system; grep -l '^\\[Install' index*.service index*.timer | grep -v @"
        seen = {"units": root.sh(listed).stdout.split()}
        root.sh("mkdir -p /run/systemd/system; rm /systemctl.log; cd /etc/systemd/system; mkdir -p a.wants b.wants; "
                "ln -s /lib/systemd/system/index@.service a.wants/index@8081.service; "
                "ln -s /lib/systemd/system/index-health@.timer b.wants/index-health@8081.timer")
        seen["remove"] = root.sh("apt-get remove --yes package-index")
        log = root.sh("cat /systemctl.log").stdout
        for what in ("stop", "disable"):
            asked = re.findall(rf"^systemctl (?:--quiet )?{what} (.*)", log, re.M)
            seen[what] = set(" ".join(asked).split())
        seen["stays"] = root.sh(there).stdout
        seen["library"] = root.sh("ls /usr/lib/python3/dist-packages/package_index 2> /dev/null").stdout
        seen["purge"] = root.sh("apt-get purge --yes package-index")
        stays = "ls /var/lib/index/index.db; ls /var/backups/index | grep -c [.]db; getent passwd index | cut -d: -f1"
        seen["left"] = root.sh(f"{there}; {stays}").stdout.split()
        return seen
