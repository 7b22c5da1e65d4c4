"""What the tests need of Debian's packages, and how a run gets what this machine lacks: root from Debian, and what the
tests are run by also by pip, in an environment of the tests' own."""
from __future__ import annotations

import os
import shutil
import subprocess
import sys
from collections.abc import Iterable
from pathlib import Path

from shown import shown

from support.places import TOP

DEBIAN = "/usr/bin/python3"
OUT = f"{TOP}/tests/out"
# what the tests are run by: modules of Python, and their packages
RUN_BY = {"pytest": "python3-pytest", "pytest_timeout": "python3-pytest-timeout", "xdist": "python3-pytest-xdist",
          "hypothesis": "python3-hypothesis"}
# The packages of Debian that tests need, and what shows that each of them, or another one with the same, is there: a
# command, a file, or a module of Debian's Python. First those of quick tests.
QUICK = {
    **{package: f"import {module}" for module, package in RUN_BY.items()},
    "python3-html5lib": "import html5lib", "python3-packaging": "import packaging",
    # the linters, and mypy for types
    "pyflakes3": "pyflakes3", "mypy": "mypy", "shellcheck": "shellcheck",
    # the proxy, its certificates and logs, hosts in network namespaces, who reaches a port, and the measures of bench/
    "nginx-light": "nginx", "libnginx-mod-http-js": "/usr/share/nginx/modules-available/mod-http-js.conf",
    "logrotate": "logrotate", "openssl": "openssl", "iproute2": "ip", "nftables": "nft", "sqlite3": "sqlite3",
    "curl": "curl", "wrk": "wrk",
    # libraries that refuse calls of a program
    "gcc": "cc", "libc6-dev": "/usr/include/stdio.h",
    # the package
    "debhelper": "dh", "help2man": "help2man", "binutils": "strip", "lintian": "lintian",
    # clients
    "twine": "twine", "flit": "flit", "python3-poetry": "poetry", "python3-pdm": "pdm", "pipenv": "pipenv",
    "tox": "tox", "nox": "nox", "pipx": "pipx", "python3-build": "pyproject-build",
    "python3-distlib": "import distlib", "python3-setuptools": "import setuptools", "python3-pip": "import pip",
    "python3-venv": "import ensurepip", "devscripts": "uscan", "git": "git",
    # look up what projects need; complete commands
    "jq": "jq", "zsh": "zsh", "fish": "fish",
    # read the page of the office, and the manual page of indexctl; render descriptions of projects
    "chromium": "chromium", "groff": "groff", "python3-readme-renderer": "import readme_renderer",
    # check identity tokens of pipelines, and sign some
    "python3-jwt": "import jwt", "python3-cryptography": "import cryptography",
    # read the file for Pacemaker
    "crmsh": "crm", "pacemaker-cli-utils": "crm_verify",
}
SLOW = {
    # a machine that systemd starts
    "systemd-container": "systemd-nspawn",
    # the container image, and what runs it
    "mmdebstrap": "mmdebstrap", "buildah": "buildah", "podman": "podman", "runc": "runc", "catatonit": "catatonit",
    "containernetworking-plugins": "/usr/lib/cni/bridge", "iptables": "iptables",
    # a release that is signed
    "gnupg": "gpg",
    # file systems whose power is cut
    "e2fsprogs": "mkfs.ext4", "btrfs-progs": "mkfs.btrfs", "mount": "losetup",
    # two virtual machines, whose kernel is unpacked and not installed
    "qemu-system-x86": "qemu-system-x86_64", "drbd-utils": "drbdadm", "busybox-static": "busybox",
}
APT_INSTALL = ["apt-get", "-o", "Acquire::Retries=3", "-o", "DPkg::Lock::Timeout=300", "install", "--yes",
               "--no-install-recommends"]
# for somebody who has to paste it
BY_HAND = "sudo apt-get install --no-install-recommends"
# an environment that has what the tests are run by
OWN, REQUIREMENTS = f"{OUT}/venv", f"{TOP}/tests/requirements.txt"
# of pip that the network is not there it says soon
PIP_INSTALL = ["-m", "pip", "install", "--quiet", "--disable-pip-version-check", "--retries", "1", "--requirement"]


def look_in_sbin() -> None:
    """Has commands found where Debian keeps nginx and nft, and where a user's PATH does not look; and promtool, where a
    run has unpacked it."""
    os.environ["PATH"] = os.pathsep.join(dict.fromkeys([*os.get_exec_path(), "/usr/sbin", "/sbin",
                                                        f"{OUT}/promtool/usr/bin"]))


def may_install() -> bool:
    return os.geteuid() == 0 and bool(shutil.which("apt-get"))


def is_gate() -> bool:
    """Whether nothing may be left out, as `.ci/run` says it."""
    return os.environ.get("CI") == "true"


def modules_of(python: str, names: Iterable[str]) -> list[str]:
    """Which of these modules this Python has: none if it is not there."""
    asks = "import sys; from importlib.util import find_spec; print(*filter(find_spec, sys.argv[1:]))"
    try:
        return subprocess.run([python, "-c", asks, *names], stdin=subprocess.DEVNULL, stdout=subprocess.PIPE,
                              stderr=subprocess.DEVNULL, text=True).stdout.split()
    except OSError:
        return []


def missing(wanted: dict[str, str]) -> list[str]:
    """Which of these packages this machine lacks."""
    modules = [it.split()[1] for it in wanted.values() if it.startswith("import ")]
    there = {f"import {it}" for it in modules_of(DEBIAN, modules)}
    return [package for package, shows in wanted.items()
            if shows not in there and not (os.path.exists(shows) if shows[0] == "/" else shutil.which(shows))]


def does(text: str, words: list[str]) -> bool:
    """Runs a command, and says meanwhile what it does. If it fails, its last lines are shown."""
    setting = {**os.environ, "DEBIAN_FRONTEND": "noninteractive", "LC_ALL": "C.UTF-8"}
    try:
        with shown(text):
            ended = subprocess.run(words, stdin=subprocess.DEVNULL, stdout=subprocess.PIPE, stderr=subprocess.STDOUT,
                                   text=True, errors="replace", env=setting)
    except OSError as end:
        print(f"  {end}", flush=True)
        return False
    if ended.returncode:
        print("".join(f"  {line}\n" for line in ended.stdout.splitlines()[-3:]), end="", flush=True)
    return not ended.returncode


def install(packages: list[str]) -> None:
    """Installs packages of Debian, together. If that fails, such as for one that this Debian does not have, each by
    itself."""
    print(f"the tests need {len(packages)} packages of Debian: {' '.join(packages)}", flush=True)
    if not does("looking which there are", ["apt-get", "-o", "Acquire::Retries=3", "update"]):
        return
    if not does("installing them", [*APT_INSTALL, *packages]) and len(packages) > 1:
        for package in packages:
            does(f"installing {package}", [*APT_INSTALL, package])


def install_missing(is_quick: bool) -> None:
    """As root, installs what the tests of a run need. Others go on without it; in the gate they are told how to get it,
    and the run ends."""
    wanted = QUICK if is_quick else {**QUICK, **SLOW}
    lacks = missing(wanted)
    if lacks and may_install():
        install(lacks)
        left = missing(wanted)
        if left:
            print(f"still missing: {' '.join(left)}", flush=True)
    elif lacks and is_gate():
        sys.exit("Only root can install what the tests need, so nothing was tested. Run this first, or tests/run "
                 f"alone:\n  {BY_HAND} {' '.join(lacks)}")


def go_on_by_a_python_with_pytest(script: str) -> None:
    """Runs the script again, by a Python that has what the tests are run by, if this one lacks it. If none is there
    yet, pip makes one in tests/out. Ends the run if it doesn't come."""
    def has_all(python: str) -> bool:
        return len(modules_of(python, RUN_BY)) == len(RUN_BY)

    if has_all(sys.executable):
        return
    # the one of an environment that is active, Debian's, or the one that a run before has made
    own = f"{OWN}/bin/python"
    found = next(filter(has_all, (shutil.which("python3") or DEBIAN, DEBIAN, own)), "")
    if not found:
        print("the tests need pytest, which comes by pip into tests/out/venv, once", flush=True)
        made = (does("making tests/out/venv", [sys.executable, "-m", "venv", "--clear", OWN])
                and does("getting what tests/requirements.txt names", [own, *PIP_INSTALL, REQUIREMENTS]))
        if not made or not has_all(own):
            venv, requirements = os.path.relpath(OWN), os.path.relpath(REQUIREMENTS)
            sys.exit("pytest is missing, so nothing was tested. Get it by one of these, and run this again:\n"
                     f"  sudo apt-get install {' '.join(RUN_BY.values())}\n"
                     f"  python3 -m venv {venv} && {venv}/bin/pip install --requirement {requirements}")
        found = own
    # what could not be installed is not tried again
    os.execv(found, [found, "-B", script, "--no-install", *sys.argv[1:]])


def unpack(name: str, text: str, script: str) -> None:
    """Has a script fill the folder `name` in tests/out, unless a run before did."""
    made, part = Path(OUT, name), Path(OUT, f"{name}.part")
    if made.is_dir() or not shutil.which("apt-cache"):
        return
    # a run that was cut off may have left another package there
    shutil.rmtree(part, ignore_errors=True)
    part.mkdir(parents=True)
    if does(text, ["bash", "-c", f"cd \"$1\" && set -o pipefail\n{script}", "bash", str(part)]):
        part.rename(made)


def unpack_kernel() -> None:
    """Unpacks Debian's kernel for virtual machines, which is not installed."""
    unpack("kernel", "unpacking a kernel for virtual machines", """
package=$(apt-cache depends linux-image-cloud-amd64 | sed -n 's/.*Depends: \\(linux-image-[^ ]*\\)$/\\1/p' | head -n 1)
apt-get -o APT::Sandbox::User=root download "$package" &&
    dpkg-deb --fsys-tarfile "$package"_*.deb | tar -x ./boot ./lib && rm "$package"_*.deb""")


def unpack_promtool() -> None:
    """Unpacks promtool, which looks at what Prometheus reads. Its package, which would start a server, is not
    installed."""
    unpack("promtool", "unpacking promtool", """
apt-get -o APT::Sandbox::User=root download prometheus &&
    dpkg-deb --fsys-tarfile prometheus_*.deb | tar -x ./usr/bin/promtool && rm prometheus_*.deb""")
