"""The blocks of docs/users/USING.md that publish: indexctl, and the clients whose uploads are forms."""
import os
import shutil
import time
import xmlrpc.client
import zipfile

import pytest
from support.clients.world import ANN, BOB
from support.packages import make_source, make_wheel, wheel_files, wheel_name

FLIT = '''[build-system]
requires = ["flit_core"]
build-backend = "flit_core.buildapi"

[project]
name = "eggs"
version = "{version}"
description = "eggs"
requires-python = ">=3.7"
'''
POETRY = '''[tool.poetry]
name = "eggs"
version = "{version}"
description = "eggs"
authors = []
packages = [{{ include = "eggs.py" }}]

[tool.poetry.dependencies]
python = ">=3.7"

[build-system]
requires = ["poetry-core"]
build-backend = "poetry.core.masonry.api"
'''
TWINE = ["twine", "upload", "--repository", "packages"]
# of a file, as the index takes it; and of a form
LARGEST, LARGEST_FORM = 16_777_216, 17 << 20
# the other bytes of a wheel of one module, which are at most so many
AROUND = 4_096


def make_dist(person, version, more="", name="eggs"):
    """A wheel and a source archive, in dist/."""
    dist = f"{person.project}/dist"
    os.makedirs(dist, exist_ok=True)
    files = wheel_files(name, version, f'VERSION = "{version}"\n{more}', requires=">=3.7")
    make_wheel(f"{dist}/{wheel_name(name, version)}", files)
    make_source(f"{dist}/{name}-{version}.tar.gz", name, version, files)


def page_with(person, project, files):
    """The page once it lists these files: nginx keeps the one before for a second."""
    until, page = time.monotonic() + 60, ""
    while not all(f">{file}<" in page for file in files) and time.monotonic() < until:
        page = person.gate.ask("GET", f"/simple/{project}/", Accept="text/html")[2].decode()
        time.sleep(0.2)
    return page


def is_published(person, *files, project="eggs"):
    """These files are in the index with the bytes of dist/, and what their metadata says of Python."""
    page = page_with(person, project, files)
    for file in files:
        with open(f"{person.project}/dist/{file}", "rb") as kept:
            is_same = person.gate.ask("GET", f"/files/{project}/{file}")[2] == kept.read()
        line = next((it for it in page.split("\n") if f">{file}<" in it), "")
        declared = 'data-requires-python="&gt;=3.7' in line or not file.endswith(".whl")
        person.looks(is_same and declared, file, f"the same bytes: {is_same}; on the page: {line}",
                     "its bytes and its Requires-Python")


@pytest.fixture
def twine_user(person):
    """Somebody with twine's settings, and a wheel and a source archive of a version that no other test uploads."""
    person.settings = person.writes("Settings of twine and flit")
    return person


def new_owner(person, user):
    """Somebody who has the page alone gets indexctl and a token by it; the office makes the user."""
    ended = person.does("indexctl and a token")
    token, digest = (line.split()[1] for line in ended.stdout.strip().split("\n")[-2:])
    person.world.index.request(do="add_user", user=user, office=False, token_sha256=digest)
    return token


@pytest.mark.follows("indexctl and a token", "Upload")
def test_somebody_with_the_page_alone_uploads(person):
    token = new_owner(person, "newcomer")
    make_dist(person, "1.0", name="acorn")
    person.succeeds(person.does("Upload", token), "user", "claim acorn: accepted", "2 of 2 files are there")
    is_published(person, "acorn-1.0-py3-none-any.whl", "acorn-1.0.tar.gz", project="acorn")
    person.succeeds(person.does("Upload", token), "2 of 2 files are there")


def test_indexctl_is_served_as_it_is_built(person):
    status, headers, body = person.gate.ask("GET", "/indexctl")
    with open(f"{person.world.bin}/indexctl", "rb") as kept:
        person.looks((status, body) == (200, kept.read()), "/indexctl", (status, len(body)), "the one file")
    person.looks(headers["Content-Type"] == "application/zip", "/indexctl", headers["Content-Type"], "a zip archive")


# what twine prints by itself, and what only with --verbose
ELSEWHERE = {"/simple/": ([], ["HTTPError: 405 ", "uploads go to /legacy/ of this address"]),
             "/": ([], ["HTTPError: 405 ", "uploads go to /legacy/ of this address"]),
             "/requests": (["--verbose"], ["HTTPError: 400 ", '"BadBody"', "indexctl upload"])}


@pytest.mark.parametrize("path", ELSEWHERE)
@pytest.mark.follows(client="twine")
@pytest.mark.told("twine gets 404")
def test_twine_that_uploads_to_another_address_is_told_where_to(person, path):
    more, said = ELSEWHERE[path]
    make_dist(person, "2.6")
    words = ["twine", "upload", *more, "--username", "__token__", "--password", ANN, "--repository-url",
             f"{person.url}{path}", "dist/eggs-2.6-py3-none-any.whl"]
    person.fails(person.run(words), *said, "/legacy/")
    found = person.gate.ask("GET", "/files/eggs/eggs-2.6-py3-none-any.whl")[0]
    person.looks(found == 404, "the file", found, "nothing was uploaded")


@pytest.mark.parametrize("path", ["/", "/simple/", "/pypi", "/pypi/"])
def test_pip_search_is_told_where_to_look(person, path):
    """By XML-RPC, as pip of Python 3.11 sends it."""
    words = ["python3", "-m", "pip", "search", "--index", f"{person.url}{path}", "frob"]
    said = "XMLRPC request failed [code: 1]", "This index has no pip search", "/simple/ or type"
    person.fails(person.run(words), *said)
    body = person.gate.ask("POST", path, "<methodCall/>", Content_Type="text/xml")[2]
    with pytest.raises(xmlrpc.client.Fault, match="indexctl search WORD"):
        xmlrpc.client.loads(body)


@pytest.mark.parametrize("path", ["/simple/", "/"])
def test_what_can_only_be_read_says_so(person, path):
    status, headers, body = person.gate.ask("POST", path, "x")
    person.looks((status, headers["Allow"], b'"BadMethod"' in body) == (405, "GET, HEAD", True), f"POST {path}",
                 (status, headers.items(), body), "405 with what is allowed")


@pytest.mark.parametrize("kind", ["application/json", "application/x-www-form-urlencoded", "text/plain", ""])
def test_a_request_goes_on_to_the_index_whatever_it_calls_itself(person, kind):
    asked = '{"do":"set_quota","name":"eggs","quota":1073741824}'
    status, _, body = person.gate.ask("POST", "/requests", asked, X_Index_Token=ANN, Content_Type=kind)
    person.looks((status, b'"NotOffice"' in body) == (403, True), kind, (status, body), "a refusal by the index")


@pytest.mark.follows("twine by its environment", client="twine")
def test_twine_uploads_by_its_environment(person):
    make_dist(person, "2.7")
    person.succeeds(person.does("twine by its environment"))
    is_published(person, "eggs-2.7-py3-none-any.whl", "eggs-2.7.tar.gz")


@pytest.mark.follows("Settings of twine and flit", "twine", client="twine")
def test_twine_uploads_and_uploads_the_same_again(twine_user):
    make_dist(twine_user, "2.0")
    twine_user.succeeds(twine_user.does("twine"))
    is_published(twine_user, "eggs-2.0-py3-none-any.whl", "eggs-2.0.tar.gz")
    twine_user.succeeds(twine_user.does("twine"))


@pytest.mark.follows("Settings of twine and flit", "twine", client="twine")
def test_twine_is_refused_other_bytes(twine_user):
    make_dist(twine_user, "2.1")
    twine_user.succeeds(twine_user.does("twine"))
    make_dist(twine_user, "2.1", "# other bytes\n")
    twine_user.fails(twine_user.does("twine"), "409", "FileNameTaken", "Raise the version")


@pytest.mark.follows("Settings of twine and flit", client="twine")
def test_twine_that_skips_what_exists_ends_well_though_other_bytes_were_refused(twine_user):
    wheel = wheel_name("eggs", "2.8")
    make_dist(twine_user, "2.8")
    twine_user.succeeds(twine_user.run([*TWINE, f"dist/{wheel}"]))
    make_dist(twine_user, "2.8", "# other bytes\n")
    twine_user.succeeds(twine_user.run([*TWINE, "--skip-existing", f"dist/{wheel}"]), f"Skipping {wheel}")
    with open(f"{twine_user.project}/dist/{wheel}", "rb") as kept:
        found = twine_user.gate.ask("GET", f"/files/eggs/{wheel}")[2]
        twine_user.looks(found != kept.read(), wheel, "the other bytes", "the first ones")


@pytest.mark.follows("Settings of twine and flit", client="twine")
def test_twine_is_refused_a_zip_archive(twine_user):
    os.mkdir(f"{twine_user.project}/dist")
    with zipfile.ZipFile(f"{twine_user.project}/dist/eggs-2.2.zip", "w") as archive:
        archive.writestr("eggs-2.2/PKG-INFO", "Metadata-Version: 2.1\nName: eggs\nVersion: 2.2\n")
    twine_user.fails(twine_user.run([*TWINE, "dist/eggs-2.2.zip"]), "400", ".whl and .tar.gz alone")


@pytest.mark.follows("Settings of twine and flit", client="twine")
def test_twine_is_refused_a_signature(twine_user):
    make_dist(twine_user, "2.3")
    wheel = f"dist/{wheel_name('eggs', '2.3')}"
    twine_user.puts(f"{wheel}.asc", "signature\n")
    twine_user.fails(twine_user.run([*TWINE, wheel, f"{wheel}.asc"]), "400", "can't keep signatures")


@pytest.mark.follows("Settings of twine and flit", client="twine")
def test_twine_is_refused_a_token_of_nobody(person):
    make_dist(person, "2.4")
    person.writes("Settings of twine and flit", token="another")
    ended = person.run([*TWINE, f"dist/{wheel_name('eggs', '2.4')}"])
    person.fails(ended, "401", "BadToken", "has to be the token")


@pytest.mark.follows("Settings of twine and flit", "twine", client="twine")
def test_twine_uploads_with_a_token_that_has_colons(person):
    make_dist(person, "1.0", name="ham")
    person.writes("Settings of twine and flit", token=BOB)
    person.succeeds(person.does("twine"))
    is_published(person, "ham-1.0-py3-none-any.whl", "ham-1.0.tar.gz", project="ham")


@pytest.mark.slow
@pytest.mark.follows("Settings of twine and flit", "twine", client="twine")
def test_twine_uploads_a_file_of_just_16_mib(twine_user):
    """Its form is larger than that. The wheel is not packed, so its module fills it up to the last byte."""
    os.mkdir(f"{twine_user.project}/dist")
    path = f"{twine_user.project}/dist/{wheel_name('eggs', '2.5')}"
    make_wheel(path, wheel_files("eggs", "2.5", "#" * (LARGEST - AROUND), requires=">=3.7"))
    lacks = LARGEST - os.path.getsize(path)
    assert 0 <= lacks < AROUND
    make_wheel(path, wheel_files("eggs", "2.5", "#" * (LARGEST - AROUND + lacks), requires=">=3.7"))
    assert os.path.getsize(path) == LARGEST
    twine_user.succeeds(twine_user.does("twine"))
    is_published(twine_user, os.path.basename(path))


@pytest.mark.follows("Settings of twine and flit", "flit", client="flit")
def test_flit_publishes(person):
    person.puts("pyproject.toml", FLIT.format(version="3.0"))
    person.puts("eggs.py", '"""eggs"""\n')
    person.writes("Settings of twine and flit")
    person.succeeds(person.does("flit"))
    is_published(person, "eggs-3.0-py3-none-any.whl", "eggs-3.0.tar.gz")


@pytest.mark.slow
@pytest.mark.follows("PDM publishes", client="pdm")
def test_pdm_publishes(person):
    person.puts("pyproject.toml", '[project]\nname = "eggs"\nversion = "4.0"\n')
    make_dist(person, "4.0")
    person.succeeds(person.does("PDM publishes"))
    is_published(person, "eggs-4.0-py3-none-any.whl", "eggs-4.0.tar.gz")


@pytest.mark.slow
@pytest.mark.follows("Poetry publishes", client="poetry")
def test_poetry_publishes_and_is_refused_other_bytes(person):
    person.puts("pyproject.toml", POETRY.format(version="5.0"))
    person.puts("eggs.py", '"""eggs"""\n')
    person.succeeds(person.does("Poetry publishes"))
    is_published(person, "eggs-5.0-py3-none-any.whl", "eggs-5.0.tar.gz")
    shutil.rmtree(f"{person.project}/dist", ignore_errors=True)
    person.puts("eggs.py", '"""other bytes"""\n')
    person.fails(person.does("Poetry publishes"), "FileNameTaken", "Raise the version")


def test_nginx_refuses_a_form_of_more_than_17_mib(person):
    with open(f"{person.project}/large", "wb") as large:
        large.truncate(LARGEST_FORM + 1)
    words = ["curl", "-sS", "-u", f"__token__:{ANN}", "-F", "content=@large;filename=eggs-9.tar.gz"]
    person.succeeds(person.run([*words, "-F", ":action=file_upload", f"{person.url}/legacy/"]), "BodyTooLarge")


def test_the_address_of_uploads_answers_get_by_405(person):
    words = ["curl", "-sS", "-o", "/dev/null", "-w", "%{http_code}", f"{person.url}/legacy/"]
    found = person.run(words)
    person.looks(found.stdout == "405", "GET of /legacy/", found.stdout, "405")
