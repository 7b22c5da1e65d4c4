"""pip installs from an index without nginx between, by pages as JSON and as HTML.

pip is the command in the variable PIP, else `python3 -m pip`."""
import os
import shlex
import tempfile
from collections.abc import Callable, Iterator

import pytest
from support.clients.curl import REASON, Curl, bytes_of, digest_of, fill, run_python
from support.clients.person import want_module
from support.clients.world import altered
from support.packages import make_packages
from support.proxy import Proxy
from support.running import run_command
from support.seen import Seen, end_seen, is_ended
from support.serving import JSON_PAGE, Index, sha256

PIP = shlex.split(os.environ.get("PIP", "python3 -m pip"))
WHEEL, YANKED = "frob-1.0-py3-none-any.whl", "frob-1.1-py3-none-any.whl"
# what a name that nobody holds is asked for
FREE_NAME = "more"
FIXED, OTHER = "spam_nest-1.0+fix.1-py3-none-any.whl", "spam_nest-2.0-py3-none-any.whl"


@pytest.fixture(scope="module")
def packages(shared_folder: str) -> dict:
    return make_packages(shared_folder)


@pytest.fixture(scope="module")
def port(program: str, shared_folder: str, packages: dict, pytestconfig: pytest.Config) -> Iterator[int]:
    """The port of an index with two users, two names and their files, which nobody changes."""
    def look(is_well, seen):
        assert is_well, seen

    with Index(program) as index:
        fill(Curl(index.port, shared_folder, look), packages)
        with altered(index.port, pytestconfig.option.alter) as at:
            yield at
        assert index.errors() == b""


class Pip:
    """pip with an empty folder, at a proxy that notes the types of the pages."""

    def __init__(self, proxy: Proxy, kind: str, folder: str, packages: dict, looked: Callable) -> None:
        self.proxy, self.kind, self.folder, self.packages, self.looked = proxy, kind, folder, packages, looked
        self.options = ["--isolated", "--no-cache-dir", "--disable-pip-version-check", "--no-input", "--no-color",
                        "--retries", "0", "--timeout", "60", "--index-url", f"http://127.0.0.1:{proxy.port}/simple/"]

    def run(self, *words: str):
        """The end of pip, and the folder `to` that it was given in place of TO."""
        to = tempfile.mkdtemp(dir=self.folder)
        words = tuple(to if word == "TO" else word for word in words)
        count = 2 if words[0] == "index" else 1
        ended = run_command([*PIP, *words[:count], *self.options, *words[count:]], 240, TMPDIR=self.folder)
        return ended, to

    def gets_pages(self) -> None:
        """Pages came of the right type. pip asks for JSON by itself."""
        pages = self.proxy.pages()
        is_well = bool(pages) and all(asked.startswith(JSON_PAGE) and got == self.kind for asked, got in pages)
        self.looked(is_well, Seen("the types of pages, as they were asked for and as they came", pages, self.kind))

    def downloads(self, file: str, *words: str, says: str = "") -> None:
        """pip takes just this file, whole."""
        ended, to = self.run("download", "--no-deps", "-d", "TO", *words)
        found = {kept.name: bytes_of(kept.path) for kept in os.scandir(to)}
        project = "frob" if file.startswith("frob") else "spam-nest"
        self.looked(is_ended(ended, True, says), end_seen(ended, True, says))
        is_well = found == {file: bytes_of(self.packages[project][file][0])}
        self.looked(is_well, Seen(f"pip download {' '.join(words)}", sorted(found), f"{file}, whole"))
        self.gets_pages()

    def installs(self, code: str, printed: str, *words: str) -> None:
        """What pip installed runs."""
        ended, to = self.run("install", "--target", "TO", *words)
        self.looked(is_ended(ended, True), end_seen(ended, True))
        ran = run_python(code, to)
        self.looked(ran.returncode == 0 and ran.stdout == printed, Seen(code, ran.stdout, printed))
        self.gets_pages()

    def refuses(self, said: str, *words: str) -> None:
        ended, to = self.run("download", "--no-deps", "-d", "TO", *words)
        self.looked(ended.returncode == 1 and said in ended.stdout, end_seen(ended, False, said))
        self.looked(not os.listdir(to), Seen(f"pip download {' '.join(words)}", os.listdir(to), "no file"))

    def pinned(self, digest: str) -> str:
        """A list of requirements that wants this digest of a file."""
        path = f"{self.folder}/requirements.txt"
        with open(path, "w") as pins:
            pins.write(f"frob==1.0 --hash=sha256:{digest}\n")
        return path


@pytest.fixture(params=[pytest.param(JSON_PAGE, id="JSON"),
                        pytest.param("text/html", id="HTML", marks=pytest.mark.slow)])
def pip(port, folder, packages, looked, request) -> Iterator[Pip]:
    """pip that gets pages of one type: a proxy asks for HTML in the place of what pip asks for."""
    if PIP[0] == "python3":
        want_module("python3", "pip", "python3-pip")
    with Proxy(port, accept=None if request.param == JSON_PAGE else request.param) as proxy:
        yield Pip(proxy, request.param, folder, packages, looked)


def test_a_source_archive_is_downloaded(pip):
    pip.downloads("frob-0.9.tar.gz", "--no-binary", ":all:", "frob")


@pytest.mark.slow
def test_a_source_archive_is_built(pip):
    pip.installs("import frob; print(frob.VERSION)", "0.9\n", "frob==0.9")


def test_a_dependency_between_two_projects_is_installed(pip):
    pip.installs("import spam_nest; print(spam_nest.FROB)", "1.0\n", "SPAM_nest")


def test_a_yanked_release_is_passed_over(pip):
    pip.downloads(WHEEL, "frob")


def test_a_yanked_release_is_taken_if_it_is_pinned(pip):
    pip.downloads(YANKED, "frob==1.1", says=REASON)


def test_a_file_for_other_pythons_is_left_out(pip):
    pip.downloads(FIXED, "Spam.Nest")


def test_a_file_for_other_pythons_is_there_for_who_ignores_that(pip):
    pip.downloads(OTHER, "--ignore-requires-python", "spam-nest")


def test_the_right_digest_is_accepted(pip):
    pip.downloads(WHEEL, "--require-hashes", "-r", pip.pinned(digest_of(pip.packages["frob"][WHEEL][0])))


def test_another_digest_is_refused(pip):
    pip.refuses("DO NOT MATCH", "--require-hashes", "-r", pip.pinned(sha256(b"")))


def test_a_free_name_has_no_distribution(pip):
    pip.refuses("No matching distribution", FREE_NAME)


def test_pip_tells_the_versions_that_are_not_yanked(pip, looked):
    ended, _ = pip.run("index", "versions", "frob")
    looked(is_ended(ended, True, "Available versions: 1.0, 0.9"), end_seen(ended, True, "Available versions: 1.0, 0.9"))
    looked("frob (1.0)" in ended.stdout.splitlines(), end_seen(ended, True, "frob (1.0)"))
    pip.gets_pages()


def test_pip_needs_no_proxy_between(port, folder, packages):
    words = ["download", "--isolated", "--no-cache-dir", "--disable-pip-version-check", "--no-deps", "-d", folder]
    ended = run_command([*PIP, *words, "--index-url", f"http://127.0.0.1:{port}/simple/", "frob"], 240)
    assert ended.returncode == 0, end_seen(ended, True)
    assert bytes_of(f"{folder}/{WHEEL}") == bytes_of(packages["frob"][WHEEL][0])
