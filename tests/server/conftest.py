"""What tests of server/ may ask for: a certificate, an index that is started again as systemd does, nginx in front of
it, and packages."""
from __future__ import annotations

import os
from collections.abc import Iterator

import pytest
from support.needed import want_command
from support.packages import make_packages
from support.server.front import Front, make_certificate
from support.server.kept import Kept
from support.server.uploads import Uploads
from support.serving import accepted


@pytest.fixture
def folder(folder: str) -> str:
    """A folder for one test, which nginx's own user may read."""
    os.chmod(folder, 0o755)
    return folder


@pytest.fixture(scope="session")
def certificate(tmp_path_factory: pytest.TempPathFactory) -> str:
    """A certificate for loopback, with its key beside it."""
    want_command("nginx", "nginx-light")
    want_command("openssl", "openssl")
    return make_certificate(str(tmp_path_factory.mktemp("certificate")))


@pytest.fixture
def kept_index(program: str, folder: str) -> Iterator[Kept]:
    """A new index on a port of its own, started again as soon as it ends."""
    with Kept(program, f"{folder}/index.db") as index:
        yield index


@pytest.fixture
def front(kept_index: Kept, certificate: str, folder: str) -> Iterator[Front]:
    """nginx in front of that index, which has nothing to complain of."""
    with Front(f"{folder}/front", certificate, kept_index.port) as nginx:
        yield nginx
        # pytest shows it if the test failed
        print(nginx.log())
        assert not nginx.errors()


@pytest.fixture
def packages(folder: str) -> dict:
    """For each project its files by name: the path, and the Python versions that its upload declares."""
    os.mkdir(f"{folder}/packages")
    return make_packages(f"{folder}/packages")


@pytest.fixture
def filled_index(kept_index: Kept, packages: dict) -> Kept:
    """The index with these packages, which went past nginx."""
    for project, files in packages.items():
        accepted(kept_index.claim(project))
        for name, (path, requires) in files.items():
            with open(path, "rb") as file:
                accepted(kept_index.upload(project, name, file.read(), requires))
    return kept_index


@pytest.fixture
def uploads(front: Front, packages: dict, folder: str) -> Uploads:
    """`indexctl upload` to nginx, as a build server runs it."""
    return Uploads(front, packages, folder)
