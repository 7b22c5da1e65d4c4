"""What the tests of indexctl share: a certificate, folders that nginx reads, and an index that nobody changes."""
from __future__ import annotations

import os
from typing import TYPE_CHECKING, Iterator

import pytest
from support.indexctl.control import Control
from support.indexctl.desk import Run
from support.needed import want_command

if TYPE_CHECKING:
    from support.indexctl.browser import Page
    from support.indexctl.site import Site


@pytest.fixture(scope="module")
def open_folder(shared_folder: str) -> str:
    """A folder that nginx's own user reads too."""
    os.chmod(shared_folder, 0o755)
    return shared_folder


@pytest.fixture(scope="module")
def certificate(open_folder: str) -> str:
    """A certificate for loopback, which nobody vouches for."""
    want_command("openssl", "openssl")
    want_command("nginx", "nginx-light")
    from support.server.front import make_certificate
    return str(make_certificate(open_folder))


@pytest.fixture(scope="module")
def still_url(program: str) -> Iterator[str]:
    """The address of an index on which the tests of a file change nothing that another one reads."""
    from support.serving import Index
    with Index(program) as index:
        yield f"http://127.0.0.1:{index.port}"


@pytest.fixture(scope="module")
def site(program: str, open_folder: str, certificate: str) -> Iterator[Site]:
    """The pages for everybody, as nginx serves them."""
    from support.indexctl.site import served_site
    with served_site(program, open_folder, certificate) as made:
        yield made


@pytest.fixture(scope="module")
def chromium() -> Iterator[Page]:
    """A page of a browser."""
    from support.indexctl.browser import opened
    with opened() as page:
        yield page


@pytest.fixture
def by(folder: str, still_url: str) -> Control:
    """indexctl for that index, with an empty home."""
    return Control(folder, still_url)


@pytest.fixture
def run(monkeypatch: pytest.MonkeyPatch) -> Run:
    """Commands at a desk that keeps what it is asked for."""
    return Run(monkeypatch)
