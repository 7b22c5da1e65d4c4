"""The blocks of USING for other clients that install, each run as it stands there but for the address; and
programs that read pages in other ways."""
import os

import pytest
from support.clients.person import DEBIAN, want_module
from support.clients.sources import CHANGELOG, PDM, POETRY, make_project
from support.clients.world import REASON

WHEEL = "frob-1.0-py3-none-any.whl"
NOXFILE = """import nox

@nox.session
def mine(session):
    session.install("frob")
    session.run("python", "-c", "import frob; print(frob.VERSION)")
"""
DISTLIB = """import sys, distlib.locators
found = distlib.locators.SimpleScrapingLocator(sys.argv[1]).get_project('frob')
print(sorted(it for it in found if it not in ('urls', 'digests')))"""
SETUPTOOLS = """import sys
from setuptools.package_index import PackageIndex
from pkg_resources import Requirement
index = PackageIndex(sys.argv[1])
index.find_packages(Requirement.parse('frob'))
print(sorted(it.version for it in index['frob']))"""


def locks(person, recipe, command, file, pin):
    """The recipe locks 1.0 in this file, with this text and its digest, and installs it."""
    person.succeeds(person.does(recipe))
    lock, digest = person.reads(file), person.world.digest(WHEEL)
    person.looks(pin in lock and digest in lock, file, lock, f"{pin} and {digest}")
    person.prints("1.0", words=(command, "run", "python"))


@pytest.mark.slow
@pytest.mark.follows("Poetry", "Poetry, a dependency", client="poetry")
def test_poetry_locks_and_installs(person):
    person.puts("pyproject.toml", POETRY)
    person.writes("Poetry")
    locks(person, "Poetry, a dependency", "poetry", "poetry.lock", 'version = "1.0"')
    person.gets("HTML")


@pytest.mark.slow
@pytest.mark.follows("Poetry", client="poetry")
def test_poetry_locks_a_yanked_release_by_its_exact_version_and_prints_the_reason(person):
    person.puts("pyproject.toml", POETRY)
    person.writes("Poetry")
    person.succeeds(person.run(["poetry", "add", "--lock", "frob==1.1"]), "yanked", REASON)


@pytest.mark.slow
@pytest.mark.follows("PDM", "PDM, a dependency", client="pdm")
def test_pdm_locks_and_installs(person):
    person.puts("pyproject.toml", PDM)
    person.writes("PDM")
    locks(person, "PDM, a dependency", "pdm", "pdm.lock", 'version = "1.0"')
    person.gets("JSON")


@pytest.mark.slow
@pytest.mark.follows("pipenv", "pipenv, lock and install", client="pipenv")
def test_pipenv_locks_and_installs(person):
    person.writes("pipenv")
    locks(person, "pipenv, lock and install", "pipenv", "Pipfile.lock", '"==1.0"')
    person.gets("JSON")


@pytest.mark.slow
@pytest.mark.follows("tox", "tox, run", client="tox")
def test_tox_installs_what_an_environment_needs(person):
    person.writes("tox")
    person.succeeds(person.does("tox, run"), "1.0")
    person.gets("JSON")


@pytest.mark.slow
@pytest.mark.follows("nox", client="nox")
def test_nox_installs_what_a_session_needs(person):
    """A session in an environment of its own, which nox makes with virtualenv."""
    person.puts("noxfile.py", NOXFILE)
    person.succeeds(person.does("nox"), "1.0", "Session mine was successful")
    person.gets("JSON")


@pytest.mark.slow
@pytest.mark.follows("pipx", client="pipx")
def test_pipx_installs_a_command(person):
    """A command in an environment of its own. What pipx itself would like to have newer is not there."""
    person.succeeds(person.does("pipx"), "installed package shout 1.0")
    person.succeeds(person.run([f"{person.home}/.local/bin/shout"]), "FROB 1.0")
    person.gets("JSON", besides=[f"/simple/{it}/" for it in ("pip", "setuptools", "wheel")])


@pytest.mark.slow
@pytest.mark.follows("pip by its environment", "build", client="pyproject-build")
def test_build_takes_the_backend_from_the_index(person):
    person.takes("pip by its environment")
    make_project(person.project, "eggs", "0.1")
    person.succeeds(person.does("build"), "Successfully built")
    made, both = person.made("dist"), ["eggs-0.1-py3-none-any.whl", "eggs-0.1.tar.gz"]
    person.looks(made == both, "dist/", made, both)
    person.gets("JSON")


@pytest.mark.follows("curl", client="curl")
def test_curl_fetches_a_file(person):
    person.succeeds(person.does("curl"))
    digest = person.run(["sha256sum", WHEEL]).stdout.split(" ")[0]
    person.looks(digest == person.world.digest(WHEEL), WHEEL, digest, person.world.digest(WHEEL))


@pytest.mark.follows("uscan", client="uscan")
def test_uscan_finds_and_fetches_the_newest_source_archive(person):
    for inner, text in (("changelog", CHANGELOG), ("control", "Source: frob\n"), ("copyright", "x\n")):
        person.puts(f"debian/{inner}", text)
    person.writes("uscan")
    os.remove(f"{person.project}/debian/copyright")
    ended = person.run(["uscan", "--no-conf", "--download", "--destdir", "."])
    person.succeeds(ended)
    made = person.made()
    person.looks(any("0.9" in it for it in made), "uscan", (made, ended.stdout), "a source archive of 0.9")


@pytest.mark.parametrize("module, code", [("distlib", DISTLIB), ("setuptools", SETUPTOOLS)])
def test_old_readers_of_html_see_no_yanks_and_no_versions_of_python(person, module, code):
    """So the page says not to use them."""
    want_module(DEBIAN, module, f"python3-{module}")
    ended = person.run([DEBIAN, "-W", "ignore", "-c", code, f"{person.url}/simple/"])
    is_there = "'1.1'" in ended.stdout and "'3.0'" in ended.stdout
    person.looks(is_there, f"{module}: the releases of frob", ended.stdout, "the yanked 1.1, and 3.0 for other Pythons")
    person.gets("HTML")
