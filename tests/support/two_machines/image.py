"""What a guest boots: Debian's kernel, and an initial file system of busybox, DRBD's commands, Debian's Python, the
program and the files of server/."""
from __future__ import annotations

import glob
import os
import re
import stat
import subprocess
from collections.abc import Iterable

from support.needed import tell_missing, want_command
from support.places import BIN, SERVER, TOP

HERE = f"{TOP}/tests/support/two_machines"
KERNEL = "linux-image-cloud-amd64"
MODULES = "virtio_pci", "virtio_blk", "virtio_net", "drbd", "xfs", "crc32c_generic", "crc32c-intel"
# the commands of a guest, and the packages of Debian that have them
COMMANDS = {
    "busybox": "busybox-static", "drbdadm": "drbd-utils", "drbdsetup": "drbd-utils", "drbdmeta": "drbd-utils",
    "mke2fs": "e2fsprogs", "python3.11": "python3",
}
# besides, if they are here
OTHERS = "/lib/drbd/drbdadm-84", "/lib/drbd/drbdsetup-84", "/usr/sbin/mkfs.xfs"
# the parts of Python's library that the programs of server/ do not reach
LEFT_OUT = re.compile(r"/(test|tests|idlelib|lib2to3|distutils|ensurepip|tkinter|turtledemo|asyncio|xml|unittest|"
                      r"email|multiprocessing|concurrent|pydoc_data|sqlite3|dist-packages|config-.*|__pycache__)(/|$)")


def command(name: str) -> str:
    """Where a command of Debian is, whatever PATH has."""
    for folder in ("/usr/sbin", "/usr/bin", "/sbin", "/bin"):
        if os.access(f"{folder}/{name}", os.X_OK):
            return f"{folder}/{name}"
    raise FileNotFoundError(f"{name} of package {COMMANDS.get(name, name)}")


def kernel_root() -> str:
    """Where Debian's kernel for virtual machines is: installed, or unpacked by tests/run. Else the test is skipped."""
    for root in ("", f"{TOP}/tests/out/kernel"):
        if glob.glob(f"{root}/boot/vmlinuz-*-cloud-amd64") and ordered(root, ["drbd"]):
            return root
    tell_missing("a kernel with DRBD for virtual machines", KERNEL)


def want_packages() -> None:
    """Skips the test without what a guest needs, and names the package."""
    want_command("qemu-system-x86_64", "qemu-system-x86")
    for name, package in COMMANDS.items():
        want_command(name, package)
    kernel_root()


def needed_by(path: str) -> list[str]:
    """The modules that a module needs."""
    with open(path, "rb") as module:
        found = re.search(rb"\0depends=([^\0]*)\0", module.read())
    return [name.decode() for name in found[1].split(b",") if name] if found else []


def ordered(root: str, names: Iterable[str]) -> list[str]:
    """The files of these modules, each behind those that it needs. What has no file is built into the kernel."""
    files = {os.path.basename(path)[:-3].replace("-", "_"): path
             for path in glob.glob(f"{root}/lib/modules/*/kernel/**/*.ko", recursive=True)}
    taken: list[str] = []

    def take(name: str) -> None:
        path = files.get(name.replace("-", "_"))
        if path and path not in taken:
            for needed in needed_by(path):
                take(needed)
            taken.append(path)

    for name in names:
        take(name)
    return taken


def libraries(programs: Iterable[str]) -> set[str]:
    """The shared libraries of programs, and what loads them."""
    found: set[str] = set()
    for path in programs:
        ended = subprocess.run(["ldd", path], stdout=subprocess.PIPE, stderr=subprocess.STDOUT, text=True)
        found |= set(re.findall(r"(?:=> |^\s)(/\S+)", ended.stdout, re.M))
    return found


class Archive:
    """An initial file system as the kernel reads it (cpio, newc)."""

    def __init__(self) -> None:
        self.parts: list[bytes] = []
        self.number = 0
        self.names: set[str] = set()

    def add(self, name: str, mode: int, body: bytes = b"") -> None:
        name, self.number = name.strip("/"), self.number + 1
        if name in self.names:
            return
        self.names.add(name)
        if os.path.dirname(name):
            self.folder(os.path.dirname(name))
        fields = self.number, mode, 0, 0, 1, 0, len(body), 0, 0, 0, 0, len(name) + 1, 0
        head = b"070701" + b"".join(b"%08X" % field for field in fields) + name.encode() + b"\0"
        self.parts += [head, bytes(-len(head) % 4), body, bytes(-len(body) % 4)]

    def folder(self, name: str) -> None:
        self.add(name, stat.S_IFDIR | 0o755)

    def file(self, path: str, name: str | None = None) -> None:
        with open(path, "rb") as kept:
            self.add(name or path, stat.S_IFREG | os.stat(path).st_mode & 0o777, kept.read())

    def text(self, name: str, text: str, mode: int = 0o644) -> None:
        self.add(name, stat.S_IFREG | mode, text.encode())

    def link(self, name: str, to: str) -> None:
        self.add(name, stat.S_IFLNK | 0o777, to.encode())

    def write(self, path: str) -> None:
        self.add("TRAILER!!!", 0)
        with open(path, "wb") as written:
            written.write(b"".join(self.parts))


def add_python(archive: Archive) -> None:
    """Debian's Python with what the programs of server/ import, and their library."""
    archive.link("/usr/bin/python3", "python3.11")
    archive.folder("/usr/lib/python3.11/lib-dynload")
    for path in glob.glob("/usr/lib/python3.11/**", recursive=True):
        is_wanted = path.endswith(".py") or re.search(r"/lib-dynload/(_posixsubprocess|select|math|_struct)\.", path)
        if os.path.isfile(path) and is_wanted and not LEFT_OUT.search(os.path.dirname(path)):
            archive.file(path)
    for path in glob.glob(f"{SERVER}/lib/package_index/*.py"):
        archive.file(path, f"/usr/lib/python3/dist-packages/package_index/{os.path.basename(path)}")


def add_package(archive: Archive, program: str) -> None:
    """What the package has: the program, the commands, and the files for two machines."""
    archive.file(program, "/usr/bin/index")
    for name in ("index-take", "index-leave"):
        with open(f"{BIN}/{name}", encoding="utf-8") as kept:
            text = kept.read().replace("#!/usr/bin/env python3", "#!/usr/bin/python3")
        archive.text(f"/usr/bin/{name}", re.sub(r"(?m)^sys\.path\.insert\(0.*\n", "", text), 0o755)
    for path in glob.glob(f"{SERVER}/two-machines/*"):
        archive.file(path, f"/usr/share/package-index/two-machines/{os.path.basename(path)}")
    archive.file(f"{SERVER}/systemd/other-host.conf", "/usr/share/package-index/other-host.conf")


def make_image(folder: str, program: str, besides: Iterable[str] = (), modules: Iterable[str] = ()) -> tuple[str, str]:
    """Makes the initial file system in a folder, with other commands and modules if they are named, and returns the
    paths of the kernel and of it."""
    root, archive = kernel_root(), Archive()
    for name in ("proc", "sys", "dev", "tmp", "run", "var/lib/drbd", "var/lock", "var/run/drbd", "var/lib/index",
                 "var/backups/index", "etc/systemd/system", "mnt"):
        archive.folder(name)
    commands = {name: command(name) for name in COMMANDS}
    programs = [*commands.values(), *besides, *(path for path in OTHERS if os.path.exists(path))]
    for path in (*programs, *sorted(libraries([*programs, program]))):
        archive.file(path)
    archive.link("/usr/sbin/mkfs.ext4", "mke2fs")
    # where the kernel calls it
    archive.link("/sbin/drbdadm", commands["drbdadm"])
    archive.link("/bin/sh", commands["busybox"])
    archive.link("/bin/busybox", commands["busybox"])
    archive.file(f"{HERE}/guest-init", "/init")
    for name in ("systemctl", "apt-get", "runuser", "openssl"):
        archive.file(f"{HERE}/{name}", f"/usr/bin/{name}")
    paths = ordered(root, [*MODULES, *modules])
    for path in paths:
        archive.file(path, f"/modules/{os.path.basename(path)}")
    archive.text("/modules/order", "".join(f"{os.path.basename(path)}\n" for path in paths))
    archive.file("/etc/mke2fs.conf")
    archive.text("/etc/drbd.conf", 'include "drbd.d/global_common.conf";\ninclude "drbd.d/*.res";\n')
    archive.text("/etc/drbd.d/global_common.conf", "global { usage-count no; }\n")
    archive.text("/etc/passwd", "root:x:0:0:root:/:/bin/sh\nindex:x:990:990:index:/var/lib/index:/bin/sh\n")
    archive.text("/etc/group", "root:x:0:\nindex:x:990:\n")
    archive.text("/etc/hosts", "127.0.0.1 localhost\n10.9.0.1 one\n10.9.0.2 two\n")
    add_python(archive)
    add_package(archive, program)
    archive.write(f"{folder}/initrd")
    return sorted(glob.glob(f"{root}/boot/vmlinuz-*-cloud-amd64"))[-1], f"{folder}/initrd"
