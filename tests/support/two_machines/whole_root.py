"""A whole Debian for guests, which systemd starts: Pacemaker, DRBD and the package, on the first disk of each."""
from __future__ import annotations

import os
import shutil
import subprocess

from support.two_machines.image import HERE, command
from support.two_machines.native import MODULES

# made once by debootstrap, which takes some minutes; not in the repository, whose files are looked at
ROOT = "/var/tmp/index-pacemaker"
MIRROR = "http://deb.debian.org/debian"
PACKAGES = ("systemd-sysv", "dbus", "udev", "kmod", "iproute2", "busybox-static", "e2fsprogs", "drbd-utils",
            "pacemaker", "pacemaker-cli-utils", "corosync", "crmsh", "resource-agents", "python3", "procps", "netbase",
            "psmisc", "libxml2-utils", "curl")
SIZE_MIB = 1536
# in the place of what a machine has of its own: its network, and who takes commands
UNIT = """[Unit]
DefaultDependencies=no
After=local-fs.target systemd-tmpfiles-setup.service
Before=network.target corosync.service
[Service]
ExecStart=/usr/local/sbin/guest-agent
Restart=always
[Install]
WantedBy=multi-user.target
"""
# what a guest has no use for, and would wait for
MASKED = """apt-daily.timer apt-daily-upgrade.timer dpkg-db-backup.timer e2scrub_all.timer e2scrub_reap.service
fstrim.timer logrotate.timer man-db.timer systemd-timesyncd.service getty.target getty@tty1.service
serial-getty@ttyS0.service
systemd-networkd.service systemd-resolved.service systemd-udevd.service systemd-udev-trigger.service
systemd-udevd-kernel.socket systemd-udevd-control.socket systemd-modules-load.service systemd-random-seed.service
systemd-binfmt.service systemd-logind.service systemd-update-utmp.service systemd-user-sessions.service
dev-hugepages.mount dev-mqueue.mount sys-kernel-debug.mount sys-kernel-tracing.mount sys-kernel-config.mount
sys-fs-fuse-connections.mount proc-sys-fs-binfmt_misc.automount keyboard-setup.service console-setup.service
systemd-journal-flush.service systemd-update-utmp-runlevel.service systemd-pcrphase.service systemd-pstore.service
modprobe@configfs.service modprobe@dm_mod.service modprobe@drm.service modprobe@efi_pstore.service modprobe@fuse.service
modprobe@loop.service kmod-static-nodes.service pcscd.socket""".split()


def make_root() -> None:
    """By debootstrap, unless it is there."""
    if os.path.exists(f"{ROOT}/usr/sbin/crm"):
        return
    shutil.rmtree(f"{ROOT}.part", ignore_errors=True)
    subprocess.run([command("debootstrap"), "--variant=minbase", f"--include={','.join(PACKAGES)}", "bookworm",
                    f"{ROOT}.part", MIRROR], check=True, stdout=subprocess.DEVNULL)
    os.rename(f"{ROOT}.part", ROOT)


def make_disk(folder: str, package: str) -> str:
    """The first disk of each guest, with the package installed."""
    root, image = f"{folder}/root", f"{folder}/root.img"
    subprocess.run(["cp", "-a", "--reflink=auto", ROOT, root], check=True)
    shutil.copy(package, f"{root}/package.deb")
    subprocess.run(["chroot", root, "dpkg", "--install", "/package.deb"], check=True, stdout=subprocess.DEVNULL,
                   stderr=subprocess.DEVNULL)
    os.remove(f"{root}/package.deb")
    subprocess.run(["cp", "-a", MODULES, f"{root}/lib/modules"], check=True)
    subprocess.run(["chroot", root, "depmod", os.listdir(f"{root}/lib/modules")[0]], check=True)
    add_files(root)
    choose_units(f"{root}/etc/systemd/system", os.listdir(f"{root}/lib/systemd/system-generators"))
    with open(image, "wb") as made:
        made.truncate(SIZE_MIB << 20)
    subprocess.run([command("mke2fs"), "-q", "-t", "ext4", "-F", "-d", root, image], check=True)
    shutil.rmtree(root)
    return image


def add_files(root: str) -> None:
    shutil.copy(f"{HERE}/guest-agent", f"{root}/usr/local/sbin/guest-agent")
    shutil.copy(f"{HERE}/fence_trial", f"{root}/usr/sbin/fence_trial")
    # it reaches no mirror, and has the packages already
    shutil.copy(f"{HERE}/apt-get", f"{root}/usr/local/bin/apt-get")
    for path, text in (("hosts", "127.0.0.1 localhost\n10.9.0.1 one\n10.9.0.2 two\n"), ("fstab", ""),
                       ("systemd/journald.conf", "[Journal]\nStorage=volatile\nRateLimitBurst=0\n"),
                       ("drbd.d/global_common.conf", "global { usage-count no; }\n"),
                       ("systemd/system/guest-agent.service", UNIT)):
        with open(f"{root}/etc/{path}", "w", encoding="utf-8") as made:
            made.write(text)


def choose_units(folder: str, generators: list[str]) -> None:
    """What a guest starts at its boot. Pacemaker has systemd read its units again at each start and stop, and programs
    that make units take most of that time."""
    wants, masks = f"{folder}/multi-user.target.wants", os.path.normpath(f"{folder}/../system-generators")
    os.symlink("../guest-agent.service", f"{wants}/guest-agent.service")
    for name in ("corosync", "logd"):
        os.remove(f"{wants}/{name}.service")
    os.mkdir(masks)
    for path in (*(f"{folder}/{name}" for name in MASKED), *(f"{masks}/{name}" for name in generators)):
        if not os.path.lexists(path):
            os.symlink("/dev/null", path)
