"""The one file by each Python from 3.8 on: each command, an upload over TLS, and an authority of one's own."""
from __future__ import annotations

import glob
import json
import os
import re
import subprocess

import pytest
from indexctl.about import VERSION
from indexctl.commands import COMMANDS
from support.clients.world import make_authority
from support.indexctl.control import assert_ends, digest, environment
from support.needed import want_command
from support.packages import make_wheel, wheel_files, wheel_name
from support.places import SERVER, TOP
from support.planted import catches
from support.server.waits import wait_for
from support.serving import Index, accepted

pytestmark = pytest.mark.xdist_group("pythons")
VERSIONS = "3.8", "3.9", "3.10", "3.11", "3.12", "3.13"
KEY_USAGE = "keyUsage=critical,keyCertSign,cRLSign"
# a line of each command, with something at each place, is read; the number of commands is printed
READS = """import sys
sys.path.insert(0, sys.argv[1])
from indexctl.command_line import load, parsers
top, made = parsers(load())
for it in load():
    words, behind = it.path.split(), []
    for given in it.arguments:
        if given.is_option and given.settings.get("required"):
            value = () if "action" in given.settings else given.settings.get("choices", ("x",))[:1]
            behind += [given.names[-1], *value]
        elif not given.is_option:
            words += given.settings.get("choices", ["x"])[:1]
    assert top.parse_args(words + behind).function is it.function, words
    assert made[it.path].format_help().startswith("usage: indexctl " + it.path), it.path
print(len(made))"""
# as the file itself, with more than a second to answer: the machine may be busy
COMPLETES = """import sys
sys.path.insert(0, sys.argv.pop(1))
from indexctl.main import main
from indexctl import completion
completion.PATIENCE = 30.0
sys.exit(main())"""


@pytest.fixture(params=[*(pytest.param(it, marks=pytest.mark.slow) for it in VERSIONS), "debian"])
def python(request):
    """A Python of this version that pyenv has here, or Debian's."""
    pattern = os.path.expanduser(f"~/.pyenv/versions/{request.param}.*/bin/python3")
    found = ["/usr/bin/python3"] if request.param == "debian" else sorted(glob.glob(pattern))
    if not found:
        pytest.skip(f"there is no Python {request.param} at {pattern}")
    return found[0]


def version_of(python):
    said = subprocess.run([python, "-V"], stdout=subprocess.PIPE, text=True, timeout=60, check=True).stdout
    return tuple(map(int, re.findall(r"\d+", said)[:2]))


@pytest.fixture(scope="module")
def one_file(open_folder):
    subprocess.run(["/usr/bin/python3", "-B", f"{TOP}/indexctl/build.py", f"{open_folder}/indexctl"], check=True)
    return f"{open_folder}/indexctl"


def run(python, *words, **setting):
    return subprocess.run([python, "-S", "-B", *words], env=environment(COLUMNS="80", **setting), text=True,
                          stdin=subprocess.DEVNULL, stdout=subprocess.PIPE, stderr=subprocess.STDOUT, timeout=120)


def test_each_python_says_the_version_and_prints_the_manual_page(python, one_file):
    for tool in (one_file, f"{TOP}/indexctl"):
        assert_ends(run(python, tool, "--version"), 0, f"indexctl {VERSION}\n")
    ended = run(python, one_file, "man")
    assert_ends(ended, 0, f'"indexctl {VERSION}"', "EXIT STATUS")
    assert len(ended.stdout.splitlines()) > 300


@catches("indexctl/about.py", 'VERSION = "0.5.0"', 'VERSION = "0.2.0"',
         ("indexctl/command_line.py", 'version=f"indexctl {VERSION}")', 'version="indexctl 0.1")'),
         also=["test_each_python_says_the_version_and_prints_the_manual_page"])
def test_the_version_is_that_of_the_newest_changes():
    """Of those that are released: the number is raised with the day of a release."""
    with open(f"{TOP}/CHANGELOG.md", encoding="utf-8") as changes:
        assert re.search("^## ([0-9.]+), [0-9]", changes.read(), re.M)[1] == VERSION


def test_the_package_has_the_same_file():
    with open(f"{SERVER}/debian/rules", encoding="utf-8") as rules:
        assert "indexctl/build.py made/bin/indexctl" in rules.read()


@catches("indexctl/command_line.py", 'return f"{summary[0].upper()}{summary[1:]}."',
         'return f"{summary[0].upper()}{summary[1:]}.".removeprefix(" ")', case="3.8")
def test_each_python_reads_the_words_of_each_command(python, one_file):
    ended = run(python, "-c", READS, one_file)
    assert (ended.returncode, ended.stdout) == (0, f"{len(COMMANDS)}\n"), ended.stdout


@pytest.fixture(scope="module")
def fronts(program, open_folder):
    """nginx in front of an index on which ann is a user, with TLS by an authority that says what its key is for, and
    by one that does not."""
    from support.server.front import Front
    want_command("nginx", "nginx-light")
    want_command("openssl", "openssl")
    certificates = {}
    for name, more in (("with", ("-addext", KEY_USAGE)), ("without", ())):
        os.mkdir(f"{open_folder}/{name}")
        certificates[name] = make_authority(f"{open_folder}/{name}", *more)
    with Index(program) as index:
        accepted(index.request(do="add_user", user="ann", office=False, token_sha256=digest("ann")))
        with Front(f"{open_folder}/one", certificates["with"], index.port) as one:
            with Front(f"{open_folder}/other", certificates["without"], index.port) as other:
                yield {"with": one, "without": other}


def setting_of(front, home):
    return {"INDEX_URL": front.url, "INDEX_TOKEN": "ann", "HOME": home,
            "INDEX_CA": f"{os.path.dirname(front.certificate)}/ca.pem"}


@catches("indexctl/uploads.py", "self.path, self.name, self.data = path, os.path.basename(path), data",
         'self.path, self.name, self.data = path, os.path.basename(path).removesuffix("/"), data', case="3.8")
def test_each_python_uploads_and_shows_over_tls(python, one_file, fronts, folder):
    name, by = f"of{''.join(map(str, version_of(python)))}{'d' * ('pyenv' not in python)}", folder
    setting = setting_of(fronts["with"], by)
    file = wheel_name(name, "1.0")
    make_wheel(f"{folder}/{file}", wheel_files(name, "1.0", "", requires=">=3.8"))
    assert_ends(run(python, one_file, "token", "check", **setting), 0, "user")
    assert_ends(run(python, one_file, "upload", "--claim", folder, **setting), 0, f"{file}: uploaded", "1 of 1 files")
    assert_ends(run(python, one_file, "upload", folder, **setting), 0, "is there already")
    assert_ends(run(python, one_file, "release", "yank", name, "1.0", "--reason", "\u00e9", **setting), 0, "accepted")
    ended = run(python, one_file, "files", name, "--json", **setting)
    assert_ends(ended, 0)
    assert [(it["file"], it["python"]) for it in json.loads(ended.stdout)] == [(file, ">=3.8")]
    assert_ends(run(python, one_file, "releases", name, **setting), 0, "\u00e9", file)
    words = "-c", COMPLETES, one_file, "completion", "bash", "--", "who", name[:3]
    # nginx may have cached the list of names a moment before this one was claimed
    wait_for(lambda: f"{name}\n" in run(python, *words, **setting).stdout)
    assert_ends(run(python, *words, **setting), 0, f"{name}\n")


@catches("indexctl/transport.py", "ssl.create_default_context(cafile=setting.ca)", "ssl.create_default_context()")
def test_each_python_trusts_an_authority_that_says_what_its_key_is_for(python, one_file, fronts, folder):
    assert_ends(run(python, one_file, "who", "x", **setting_of(fronts["with"], folder)), 0, "free")


@catches("indexctl/transport.py", "NO_KEY_USAGE = 92", "NO_KEY_USAGE = 93", case="3.13")
def test_from_3_13_on_an_authority_has_to_say_what_its_key_is_for(python, one_file, fronts, folder):
    ended = run(python, one_file, "who", "x", **setting_of(fronts["without"], folder))
    if version_of(python) >= (3, 13):
        assert_ends(ended, 2, "has no keyUsage", "Tell the operator")
    else:
        assert_ends(ended, 0, "free")
