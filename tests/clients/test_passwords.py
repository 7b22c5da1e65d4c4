"""An index whose proxy asks for a password: who takes it from ~/.netrc or from a keyring, and who does not."""
from __future__ import annotations

import glob
import os

import pytest
from support.clients.person import DEBIAN, machines_python, want_module
from support.clients.sources import CHANGELOG, PDM, POETRY
from support.clients.world import ANN, PASSWORD, READER
from support.needed import want_command
from support.planted import catches
from support.running import write_below

PIP = ["python3", "-m", "pip"]
# a keyring in a file: those of desktops want a session
KEYRING = """import json, os
from keyring.backend import KeyringBackend
PATH = os.path.expanduser("~/keyring.json")

class Keyring(KeyringBackend):
    priority = 1

    def kept(self):
        return json.load(open(PATH)) if os.path.exists(PATH) else {}

    def get_password(self, service, username):
        # pip asks with the port, which the page has not
        return self.kept().get(service.partition(":")[0] + " " + username)

    def set_password(self, service, username, password):
        json.dump({**self.kept(), service + " " + username: password}, open(PATH, "w"))
"""


@pytest.fixture
def reader(new_person, world):
    """Somebody to whom nginx gives nothing without a password."""
    return new_person(world.locked)


def has_password(person):
    os.chmod(person.writes("A password for all clients"), 0o600)


def locked_out(reader):
    """The same, with pip."""
    person = reader.enter_environment(machines_python())
    person.takes("pip by its environment")
    person.fails(person.run([*PIP, "install", "frob"]), "from versions: none")
    return person


@pytest.mark.slow
@pytest.mark.follows("pip by its environment", "A password for all clients")
def test_a_password_for_all_clients_lets_pip_in(reader):
    person = locked_out(reader)
    has_password(person)
    person.succeeds(person.run([*PIP, "install", "frob"]), "frob-1.0")


@pytest.mark.slow
@pytest.mark.follows("pip by its environment", "A password for all clients")
def test_a_wrong_password_lets_nobody_in(reader):
    person = locked_out(reader)
    # in the address it wins over the right one of the file
    has_password(person)
    address = person.url.replace("https://", f"https://{READER}:wrong@")
    person.fails(person.run([*PIP, "install", "--force-reinstall", "frob", "--index-url", f"{address}/simple/"]))
    asked = person.asked(lambda those: sum(it[0] == "401" for it in those) > 1)
    person.looks(sum(it[0] == "401" for it in asked) > 1, "pages", asked, "status 401")


@pytest.mark.follows("A password for all clients")
def test_curl_takes_the_password_with_n_alone(reader):
    has_password(reader)
    words = ["curl", "-fsS", f"{reader.url}/simple/frob/"]
    reader.fails(reader.run(words), "401")
    reader.succeeds(reader.run([*words, "-n"]), "frob-1.0")


@pytest.mark.slow
@pytest.mark.follows("Poetry", "A password for all clients", client="poetry")
def test_poetry_takes_the_password(reader):
    reader.puts("pyproject.toml", POETRY)
    reader.writes("Poetry")
    reader.fails(reader.run(["poetry", "add", "--lock", "frob>=1.0"]))
    asked = reader.asked(lambda those: "401" in {it[0] for it in those})
    reader.looks("401" in {it[0] for it in asked}, "pages", asked, "status 401")
    reader.puts("pyproject.toml", POETRY)
    reader.writes("Poetry")
    has_password(reader)
    reader.succeeds(reader.run(["poetry", "add", "--lock", "frob>=1.0"]))
    reader.looks('version = "1.0"' in reader.reads("poetry.lock"), "poetry.lock", reader.reads("poetry.lock"), "1.0")


@pytest.mark.slow
@pytest.mark.follows("PDM", "A password for all clients", client="pdm")
def test_pdm_takes_the_password(reader):
    reader.puts("pyproject.toml", PDM)
    reader.writes("PDM")
    has_password(reader)
    reader.succeeds(reader.run(["pdm", "add", "--no-sync", "frob"], PDM_CHECK_UPDATE="0"))
    reader.looks('version = "1.0"' in reader.reads("pdm.lock"), "pdm.lock", reader.reads("pdm.lock"), "1.0")


@pytest.mark.follows("A password for all clients")
def test_indexctl_takes_the_password(reader):
    words = [DEBIAN, "-S", f"{reader.world.bin}/indexctl", "files", "frob"]
    setting = {"INDEX_URL": reader.url, "INDEX_CA": reader.gate.authority}
    reader.fails(reader.run(words, **setting), "401", "~/.netrc")
    has_password(reader)
    reader.succeeds(reader.run(words, **setting), "frob-1.0-py3-none-any.whl")


@catches("tests/support/clients/world.py", 'f"auth_basic packages;', 'f"auth_basic off;',
         also=["test_a_password_for_all_clients_lets_pip_in", "test_a_wrong_password_lets_nobody_in"])
@pytest.mark.follows("uscan", "A password for all clients", client="uscan")
def test_uscan_takes_no_password(reader):
    for inner, text in (("changelog", CHANGELOG), ("control", "Source: frob\n"), ("copyright", "x\n")):
        reader.puts(f"debian/{inner}", text)
    reader.writes("uscan")
    has_password(reader)
    reader.fails(reader.run(["uscan", "--no-conf", "--download", "--destdir", "."]), "401")


def keyring_user(reader, python):
    """Somebody with the pip of a Python, and the password in a keyring."""
    want_command("keyring", "python3-keyring")
    want_module(DEBIAN, "keyring", "python3-keyring")
    write_below(reader.home, "modules/kept_keyring.py", KEYRING)
    # pip 24.2 takes no address for a host, unless it reads certificates as it did before
    reader.setting.update(PYTHONPATH=f"{reader.home}/modules", PYTHON_KEYRING_BACKEND="kept_keyring.Keyring",
                          PIP_USE_DEPRECATED="legacy-certs" if "/3.13" in python else "")
    person = reader.enter_environment(python)
    person.takes("A password in your keyring", given=PASSWORD)
    return person


@pytest.mark.slow
@pytest.mark.parametrize("python", ["python3", "debian", "3.13"])
@pytest.mark.follows("A password in your keyring")
def test_pip_takes_the_password_from_a_keyring(reader, python):
    """In a pipeline, where pip may not ask, one before 23.1 looks into no keyring, and a later one if that is named."""
    found = {"python3": [machines_python()], "debian": [DEBIAN]}.get(python) or glob.glob(
        os.path.expanduser(f"~/.pyenv/versions/{python}.*/bin/python3"))
    if not found:
        pytest.skip(f"pyenv has no Python {python} here")
    person, install = keyring_user(reader, found[0]), [*PIP, "install", "--force-reinstall", "frob"]
    version = tuple(map(int, person.run([*PIP, "--version"]).stdout.split()[1].split(".")[:2]))
    needed = "PIP_KEYRING_PROVIDER" if version >= (23, 1) else "PIP_NO_INPUT"
    has_both, without = person.run(install), {**person.setting}
    del without[needed]
    person.setting = without
    by = {True: has_both, False: person.run(install)}
    person.succeeds(by[version >= (23, 1)], "frob-1.0")
    person.fails(by[version < (23, 1)], "from versions: none")


def test_an_upload_needs_the_token_alone_where_readers_need_a_password(reader):
    words = ["curl", "-sS", "-u", f"__token__:{ANN}", "-F", ":action=file_upload", f"{reader.url}/legacy/"]
    reader.succeeds(reader.run(words), "no file in its field")
