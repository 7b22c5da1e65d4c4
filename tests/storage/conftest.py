"""What tests of storage share: a machine that systemd started, set up as the pages say."""
from __future__ import annotations

import os
from collections.abc import Iterator

import pytest
from support.needed import want_command
from support.running import built
from support.server.expected import assert_ends
from support.server.front import make_certificate
from support.server.machine import Machine
from support.server.packaged import make_package
from support.server.pasted import block
from support.server.stepped import CALLS, FORGET, Packages, stepped

CLAIM = ("curl -sf -H \"X-Index-Token: $(cat office)\" -d '{\"do\":\"claim\",\"name\":\"kept\"}' "
         "http://127.0.0.1:8080/requests")


@pytest.fixture(scope="session")
def package(program: str, tmp_path_factory: pytest.TempPathFactory) -> str:
    """The path of a package of the program."""
    want_command("dh", "debhelper")
    folder = str(tmp_path_factory.mktemp("package"))
    assert_ends(make_package(program, folder, "--unproved"), 0)
    return f"{folder}/package-index_1_amd64.deb"


@pytest.fixture(scope="session")
def machine(package: str, tmp_path_factory: pytest.TempPathFactory) -> Iterator[Machine]:
    """A machine that was set up by the blocks of the page, whose index has the name `kept`, and a backup."""
    for command, name in (("systemd-nspawn", "systemd-container"), ("nginx", "nginx-light")):
        want_command(command, name)
    folder = str(tmp_path_factory.mktemp("machine"))
    certificate = make_certificate(folder, "DNS:packages.example")
    with Machine(folder) as made:
        if not made.is_there:
            pytest.skip("this machine lets nobody start another one")
        made.put("/root/package-index_1_amd64.deb", package)
        made.put("/etc/ssl/packages.example.pem", certificate)
        made.put("/etc/ssl/packages.example.key", f"{os.path.dirname(certificate)}/key")
        apt = block('apt-get install "./$(ls').replace("install", "install --yes --no-install-recommends")
        assert_ends(made.sh(f"rm -f /var/lib/man-db/auto-update; {apt}", 300), 0)
        assert_ends(made.sh(f"{block('office=$(openssl rand -hex 32)' + chr(10) + 'runuser')}echo $office > office"), 0)
        made.paste(block("host=packages.example"))
        starts = block("systemctl enable --now index.service").replace("curl -fsS", "curl -kfsS")
        assert_ends(made.sh(starts), 0, '{"name":"x","state":"free"}')
        assert_ends(made.sh(f"{CLAIM} && systemctl start index-backup"), 0)
        assert made.has_kept()
        yield made


@pytest.fixture(scope="session")
def packages(machine: Machine, package: str, tmp_path_factory: pytest.TempPathFactory) -> Packages:
    """Two versions of the package whose scripts can be stopped. The first is installed, and serves."""
    folder = str(tmp_path_factory.mktemp("stepped"))
    for version in (1, 2):
        made = stepped(package, folder, version)
        machine.put(f"/root/{os.path.basename(made)}", made)
    machine.put(CALLS, built("kill_calls", folder))
    machine.sh(FORGET)
    found = Packages(machine)
    assert found.install(1).returncode == 0
    return found
