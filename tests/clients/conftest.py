"""What the tests of clients may ask for: an index behind nginx, as USING describes it, and somebody who follows
the recipes of that page; an index with packages that is asked past nginx; and index-legacy-upload."""
from __future__ import annotations

import os
import tempfile
from collections.abc import Callable, Iterator

import pytest
from support.clients.person import DEBIAN, Person, machines_python, want_module
from support.clients.world import World
from support.needed import want_command

# by a client's command, the package of Debian that has it
PACKAGES = {"curl": "curl", "flit": "flit", "nox": "nox", "pdm": "python3-pdm", "pipenv": "pipenv", "pipx": "pipx",
            "poetry": "python3-poetry", "pyproject-build": "python3-build", "tox": "tox", "twine": "twine",
            "uscan": "devscripts"}


def pytest_configure(config: pytest.Config) -> None:
    config.addinivalue_line("markers", "follows(block, .., client): the blocks of USING that a test runs, and "
                            "the command of the client that they are for")


@pytest.fixture(scope="session")
def world(program: str, pytestconfig: pytest.Config) -> Iterator[World]:
    """The index behind nginx, filled with packages."""
    want_command("nginx", "nginx-light")
    want_command("openssl", "openssl")
    with tempfile.TemporaryDirectory() as folder:
        # nginx's own user reads what it keeps there
        os.chmod(folder, 0o755)
        with World(program, folder, pytestconfig.option.alter) as made:
            yield made


@pytest.fixture
def new_person(world: World, looked: Callable, request: pytest.FixtureRequest) -> Iterator[Callable]:
    """Makes somebody who follows the recipes that the test is marked with, by their client, which has to be here. In
    the end each of these has been followed, and nginx has no complaint."""
    marker = request.node.get_closest_marker("follows")
    client = marker.kwargs.get("client") if marker else None
    if client:
        want_command(client, PACKAGES[client])
    made = []

    def make(gate=None):
        made.append(Person(world, looked, marker.args if marker else (), gate))
        return made[-1]

    failed = request.session.testsfailed
    yield make
    for it in made:
        it.leave()
    if request.session.testsfailed == failed:
        followed = {name for it in made for name in it.followed}
        assert not made or {*made[0].declared} <= followed, (made[0].declared, followed)
    complaints = [*world.gate.errors(), *world.locked.errors()]
    assert not complaints


@pytest.fixture
def person(new_person: Callable) -> Person:
    """Somebody with an empty home and an empty project."""
    return new_person()


@pytest.fixture
def pip_user(person: Person) -> Person:
    """Somebody in a virtual environment of the machine's python3, with its pip."""
    return person.enter_environment(machines_python())


@pytest.fixture(params=["python3", pytest.param("debian", marks=pytest.mark.slow)])
def each_pip_user(person: Person, request: pytest.FixtureRequest) -> Person:
    """The same, and somebody with Debian's pip if that is another."""
    python = machines_python()
    if request.param == "debian":
        want_module(DEBIAN, "pip", "python3-pip")
        if os.path.realpath(DEBIAN) == os.path.realpath(python):
            pytest.skip("python3 is Debian's own")
        python = DEBIAN
    return person.enter_environment(python)
