"""An address on which `serve` can't listen is printed on a second line, with the cause."""
import os
import shutil
import socket
import subprocess

import pytest
from support.needed import want_command
from support.subcommands import End

MALFORMED = ("localhost:0", "nowhere", "127.0.0.1", "127.0.0.1:", ":8080", "8080", "127.0.0.1:65536", "127.0.0.1:80000",
             "256.0.0.1:0", "[::1]", "::1:8080", "", " 127.0.0.1:0", "http://127.0.0.1:8080")
# a user without rights, in a network of its own: there the first 1,024 ports want a right, whatever they do outside
UNPRIVILEGED = "unshare", "--net", "setpriv", "--reuid=65534", "--regid=65534", "--clear-groups"


@pytest.fixture
def listens(end, index_file):
    """How a server at this address ends."""
    return lambda address, **how: end("serve", "--db", index_file, "--listen", address, "--requests", "1", **how)


def told(address, cause):
    return End(1, b"", f"index: Listen\nindex: {address}: {cause}\n".encode())


def test_a_malformed_address(listens, looked):
    for address in MALFORMED:
        ended = listens(address)
        looked(ended == told(address, "not an IP address with a port"), address, ended)


@pytest.mark.parametrize("host, family", [("127.0.0.1", socket.AF_INET), ("::1", socket.AF_INET6)])
@pytest.mark.told("`index: Listen`")
def test_a_port_on_which_another_program_listens(listens, host, family):
    with socket.socket(family) as other:
        try:
            other.bind((host, 0))
        except OSError:
            pytest.skip(f"this machine has no address {host}")
        other.listen()
        port = other.getsockname()[1]
        address = f"[{host}]:{port}" if ":" in host else f"{host}:{port}"
        assert listens(address) == told(address, "in use by another program")


def test_an_address_of_another_machine(listens):
    """No machine has this one: it stands in texts (RFC 5737)."""
    assert listens("192.0.2.1:0") == told("192.0.2.1:0", "not an address of this machine")


def test_an_address_of_a_link_that_is_not_named(listens):
    """It is valid for each link of a machine, so the system can't know which."""
    assert listens("[fe80::1]:8080") == told("[fe80::1]:8080", "the system can't listen there")


def test_no_right_to_a_port(program, folder):
    """The database is made there by the user without rights, as a server needs it."""
    if os.geteuid() != 0:
        pytest.skip("only root makes a network, in which the first ports want a right on each machine")
    for command in ("unshare", "setpriv"):
        want_command(command, "util-linux")
    copy, under = shutil.copy(program, f"{folder}/program"), folder
    while under != "/":
        os.chmod(under, os.stat(under).st_mode | 0o055)
        under = os.path.dirname(under)
    os.mkdir(f"{folder}/rights")
    os.chown(f"{folder}/rights", 65534, 65534)
    path, digest = f"{folder}/rights/index.db", "0" * 64
    for words in (["init", "--user", "office", "--token-sha256", digest],
                  ["serve", "--listen", "0.0.0.0:80", "--requests", "1"]):
        ended = subprocess.run([*UNPRIVILEGED, copy, *words, "--db", path], capture_output=True, timeout=60)
    assert End(ended.returncode, ended.stdout, ended.stderr) == told("0.0.0.0:80", "no right to listen on this port")
