"""The blocks of docs/users/USING.md that are for pip, each run as it stands there but for the address."""
import pytest
from support.clients.world import REASON
from support.serving import accepted

PIP = ["python3", "-m", "pip"]
WHEEL = "frob-1.0-py3-none-any.whl"
# what a name that nobody holds would be asked for
FREE_NAME = "nothing"
NO_AUTHORITY = {"REQUESTS_CA_BUNDLE": "", "SSL_CERT_FILE": "", "CURL_CA_BUNDLE": ""}


@pytest.mark.follows("pip, once")
def test_pip_once_installs_the_newest_release_that_is_final_not_yanked_and_for_this_python(each_pip_user):
    person = each_pip_user
    person.succeeds(person.does("pip, once"), "Successfully installed frob-1.0")
    # 1.1 is yanked, 2.0rc1 not final, and 3.0 for other Pythons
    person.prints("1.0")
    asked = person.asked(lambda those: any(path.startswith("/files/") for _, _, path, _, _ in those))
    files = [path for _, _, path, _, _ in asked if path.startswith("/files/")]
    person.looks(files == [f"/files/frob/{WHEEL}"], "files", files, f"{WHEEL} alone")
    person.gets("JSON")


@pytest.mark.slow
@pytest.mark.follows("pip, always")
def test_pip_always_reads_its_settings(pip_user):
    pip_user.writes("pip, always")
    pip_user.succeeds(pip_user.run([*PIP, "install", "SPAM_Nest"]), "SPAM_Nest-1.0+fix.1")
    # what it depends on
    pip_user.prints("1.0", "import spam_nest; print(spam_nest.FROB)")
    pip_user.gets("JSON")


@pytest.mark.slow
@pytest.mark.follows("pip by its environment")
def test_pip_by_its_environment_sees_the_releases_for_this_python(pip_user):
    pip_user.takes("pip by its environment")
    pip_user.fails(pip_user.run([*PIP, "install", "frob==3.0"]), "Requires-Python")
    pip_user.succeeds(pip_user.run([*PIP, "index", "versions", "frob"]), "1.0, 0.9, 0.8")


@pytest.mark.follows("pip by its environment")
def test_pip_by_its_environment_finds_no_name_that_nobody_holds(pip_user):
    pip_user.takes("pip by its environment")
    pip_user.fails(pip_user.run([*PIP, "install", FREE_NAME]), "No matching")


@pytest.mark.slow
@pytest.mark.follows("pip by its environment", "A yanked release")
def test_a_yanked_release_is_installed_by_its_exact_version_with_a_warning(pip_user):
    pip_user.takes("pip by its environment")
    pip_user.succeeds(pip_user.does("A yanked release"), "1.1", REASON)


@pytest.mark.slow
@pytest.mark.follows("pip by its environment", "Hashes, once")
def test_hashes_once_writes_the_digest_of_the_file(each_pip_user):
    person = each_pip_user
    person.takes("pip by its environment")
    person.succeeds(person.does("Hashes, once"))
    pins, digest = person.reads("requirements.txt"), person.world.digest(WHEEL)
    person.looks(pins == f"frob==1.0 --hash=sha256:{digest}\n", "requirements.txt", pins, digest)


@pytest.mark.slow
@pytest.mark.follows("pip by its environment", "Hashes, each time")
def test_hashes_each_time_install_the_file_and_refuse_other_bytes(each_pip_user):
    person = each_pip_user
    person.takes("pip by its environment")
    person.puts("requirements.txt", f"frob==1.0 --hash=sha256:{person.world.digest(WHEEL)}\n")
    person.succeeds(person.does("Hashes, each time"), "Successfully installed frob-1.0")
    person.puts("requirements.txt", f"frob==1.0 --hash=sha256:{'0' * 64}\n")
    person.run([*PIP, "uninstall", "-y", "frob"])
    person.fails(person.does("Hashes, each time"), "DO NOT MATCH")


@pytest.mark.slow
@pytest.mark.follows("pip by its environment", "Constraints", "With constraints")
def test_with_constraints_an_older_release_is_installed(pip_user):
    pip_user.takes("pip by its environment")
    pip_user.writes("Constraints")
    pip_user.succeeds(pip_user.does("With constraints"), "frob-0.9", "spam-nest-1.0+fix.1")


@pytest.mark.slow
@pytest.mark.follows("pip by its environment", "A source archive")
def test_a_source_archive_is_built_by_a_backend_from_the_same_index(each_pip_user):
    person = each_pip_user
    person.takes("pip by its environment")
    person.succeeds(person.does("A source archive"), "Successfully built frob")
    made = person.made()
    person.looks("frob-0.8-py3-none-any.whl" in made, "the project's folder", made, "the wheel")
    backend = "/files/tiny-backend/tiny_backend-1.0-py3-none-any.whl"
    paths = [path for _, _, path, _, _ in person.asked(lambda those: backend in {it[2] for it in those})]
    person.looks(backend in paths, "files", paths, backend)


@pytest.mark.slow
@pytest.mark.follows("pip by its environment")
def test_pip_says_the_same_of_a_name_that_nobody_holds_and_of_one_without_files(pip_user):
    pip_user.takes("pip by its environment")
    # a name to which no other test uploads
    accepted(pip_user.world.index.claim("hollow"))
    for name, said in (("nobody-has-it", "NoProject"), ("hollow", "<html>")):
        pip_user.fails(pip_user.run([*PIP, "install", name]), "from versions: none", "No matching distribution found")
        pip_user.succeeds(pip_user.run(["curl", "-sS", f"{pip_user.url}/simple/{name}/"]), said)
    pip_user.fails(pip_user.run([*PIP, "install", "frob>=99"]), "(from versions: 0.8, 0.9, 1.0")


@pytest.mark.slow
def test_a_ca_of_your_own_is_trusted_by_nobody_who_does_not_take_it(pip_user):
    words = [*PIP, "install", "--retries", "0", "--index-url", f"{pip_user.url}/simple/", "frob"]
    pip_user.fails(pip_user.run(words, **NO_AUTHORITY), "CERTIFICATE_VERIFY_FAILED")
    pip_user.succeeds(pip_user.run(words), "Successfully installed frob-1.0")
