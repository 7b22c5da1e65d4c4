"""An index on a host of its own behind nginx on another, which can lose its power or its cable."""
from __future__ import annotations

import re
from collections.abc import Iterator
from contextlib import contextmanager
from dataclasses import dataclass

from support.places import SERVER
from support.ports import free_port
from support.server.front import Front
from support.server.kept import Kept
from support.server.network import Host, Loopback, Refused, another_host
from support.serving import accepted

LISTEN = re.compile(r"--listen (\S+):(\d+)")


def listen_of_a_host() -> tuple[str, int]:
    """Where an index on a host of its own listens, by server/systemd/other-host.conf."""
    with open(f"{SERVER}/systemd/other-host.conf") as kept:
        found = LISTEN.search(kept.read())
    assert found, "other-host.conf does not say where the index listens"
    return found[1], int(found[2])


@dataclass
class Behind:
    """A host with an index, nginx in front of it, and `refused`: why it is an address of loopback, of which the index
    alone can go."""
    host: Host | Loopback
    index: Kept
    front: Front
    refused: Refused | None

    def fill(self) -> None:
        """A claim and an upload, through nginx."""
        accepted(self.front.claim("frob"))
        accepted(self.front.upload("frob", "frob-1.0.tar.gz", b"frob"))


@contextmanager
def behind_nginx(program: str, folder: str, certificate: str) -> Iterator[Behind]:
    with another_host() as (host, refused):
        listen, port = (None, free_port()) if refused else listen_of_a_host()
        with Kept(program, f"{folder}/host.db", port=port, host=host.address, listen=listen, under=host.under) as index:
            with Front(f"{folder}/hosts", certificate, f"{host.address}:{port}") as front:
                yield Behind(host, index, front, refused)
