"""The Debian package: what is in it, and its life on a machine.

The tests of one life share a root, in which each step is taken once: the first that asks for one takes it, with those
before it."""
from __future__ import annotations

import json
import os
import re
import shutil
from collections.abc import Iterator

import pytest
from support.needed import want_command
from support.places import SERVER, TOP
from support.planted import catches
from support.running import run_command
from support.server.expected import assert_ends
from support.server.packaged import WORDS, Life, Root, make_newer, make_package
from support.serving import sha256

pytestmark = [pytest.mark.slow, pytest.mark.xdist_group("package"), pytest.mark.timeout(600)]


@pytest.fixture(scope="session")
def package_folder(program: str, tmp_path_factory: pytest.TempPathFactory) -> str:
    """A folder with a package of the program."""
    for command, package in (("dh", "debhelper"), ("dpkg-buildpackage", "dpkg-dev"), ("help2man", "help2man"),
                             ("make", "make"), ("strip", "binutils")):
        want_command(command, package)
    folder = str(tmp_path_factory.mktemp("packages"))
    assert_ends(make_package(program, folder, "--unproved"), 0, f"{folder}/package-index_1_amd64.deb\n")
    return folder


@pytest.fixture(scope="session")
def package(package_folder: str) -> str:
    return f"{package_folder}/package-index_1_amd64.deb"


@pytest.fixture(scope="session")
def paths(package: str) -> set:
    """The files of the package."""
    return set(re.findall(r"\S+ \./(\S*[^/\s])$", run_command(["dpkg-deb", "--contents", package]).stdout, re.M))


@pytest.fixture(scope="session")
def life(package: str, package_folder: str, certificate: str) -> Iterator[Life]:
    """The package in a root of its own, where nothing is done yet."""
    for command, name in (("apt-get", "apt"), ("sqlite3", "sqlite3"), ("systemd-analyze", "systemd")):
        want_command(command, name)
    with Root(f"{package_folder}/root") as root:
        if not root.is_there:
            pytest.skip("this machine lets nobody mount an overlay")
        yield Life(root, package, make_newer(package, package_folder), certificate)


@catches("tools/package", "moment = moment_of(made)", "moment = int(time.time())")
@catches("tools/package", "os.makedirs(path, exist_ok=True)", "pass",
         also=["program/test_mistakes.py::"
               "test_a_mistake_is_answered_in_one_sentence[tools/package --program {index} --out {file}-is not a "
               "folder, and can't be made: File exists]"])
def test_a_package_made_again_is_the_same(program, package, package_folder):
    yours = {"TZ": "Asia/Tokyo", "HOME": package_folder, "COLUMNS": "40", "DEB_BUILD_OPTIONS": "nostrip"}
    ended = make_package(program, f"{package_folder}/again", "--unproved", **yours)
    assert_ends(ended, 0)
    digests = []
    for path in (package, ended.stdout.splitlines()[-1]):
        with open(path, "rb") as made:
            digests.append(sha256(made.read()))
    assert digests[0] == digests[1]


@catches("tools/package", "if UNPROVED in told and not may_be_unproved:", "if not told:")
def test_a_program_that_is_not_proved_is_refused(tmp_path):
    program = tmp_path / "index"
    for told, status, said in (("index 1 (NOT PROVED, kit)", 1, "that is proved"), ("index 1", 1, "ended with status")):
        program.write_text(f"#!/bin/sh\n[ $1 != --version ] || exec echo '{told}'\nexit 1\n")
        program.chmod(0o755)
        assert_ends(make_package(str(program), str(tmp_path)), status, said)
    assert_ends(make_package(str(tmp_path / "none"), str(tmp_path)), 1, "is not there; build it by tools/build")
    assert os.listdir(tmp_path) == ["index"]


def test_all_of_server_and_indexctl_is_in_it(paths):
    names = {os.path.basename(it) for it in paths} | {"index.sysusers.conf", "index.bash-completion"}
    wanted = {it for at, _, inside in os.walk(SERVER) for it in inside if not re.search("/(debian|__pycache__)", at)}
    assert len(wanted) > 30 and not wanted - names - {"README.md"}
    assert {"usr/bin/indexctl", "usr/lib/python3/dist-packages/package_index/names.py",
            "usr/share/bash-completion/completions/index",
            "usr/share/bash-completion/completions/indexctl", "usr/lib/sysusers.d/package-index.conf"} <= paths


def test_each_file_for_nginx_has_its_original_there(paths):
    """Whoever put another one in the place of indexes.conf finds one-index.conf to go back to."""
    assert {f"usr/share/package-index/{it}" for it in os.listdir(f"{SERVER}/nginx")} <= paths


def test_what_names_callers_and_what_rotates_their_log_is_in_it(paths):
    assert {"etc/nginx/index/callers.conf", "etc/nginx/index/callers.js", "etc/logrotate.d/package-index"} <= paths


def test_what_changed_is_in_it(paths):
    """Whoever upgrades has to go by it, and may have the package alone. What was before is not in it."""
    assert "usr/share/package-index/CHANGELOG.md" in paths
    assert not [it for it in paths if "CHANGES-TO" in it]


def test_all_pages_of_docs_are_in_it(paths, looked):
    for folder, _, names in os.walk(f"{TOP}/docs"):
        for name in names:
            path = os.path.relpath(f"{folder}/{name}", f"{TOP}/docs")
            looked(f"usr/share/doc/package-index/{path}" in paths, path)
    looked("usr/share/doc/package-index/changelog.gz" in paths, "changelog.gz")


@catches("tools/package", 'write(f"{tree}/debian/copyright", copyright_of(TOP))', "pass")
def test_the_notices_of_others_are_in_it_and_the_list_of_its_parts_is_beside_it(package, package_folder, looked):
    run_command(["dpkg-deb", "--extract", package, f"{package_folder}/notices"])
    with open(f"{package_folder}/notices/usr/share/doc/package-index/copyright", encoding="utf-8") as kept:
        text = kept.read()
    for holder in ("Sean McArthur", "The RustCrypto Project Developers", "Julien Schmidt", "Danny Guo"):
        looked(holder in text, holder)
    with open(package.removesuffix(".deb") + ".cdx.json", encoding="utf-8") as kept:
        names = {it["name"] for it in json.load(kept)["components"]}
    looked({"index_rules", "clap", "strsim", "std"} <= names, names)


@catches("server/debian/manuals.py", "for name in sorted(os.listdir(commands)):",
         "for name in sorted(os.listdir(commands))[1:]:")
def test_each_command_has_a_man_page(paths):
    commands = {os.path.basename(it) for it in paths if it.startswith("usr/bin/")}
    pages = {os.path.basename(it)[:-5] for it in paths if it.startswith("usr/share/man/man1/")}
    assert len(commands) > 5 and commands == pages


def test_the_files_for_two_machines_are_in_it(paths):
    folder = "usr/share/package-index/two-machines/"
    assert {it for it in paths if it.startswith(folder)} >= {f"{folder}{it}" for it in os.listdir(
        f"{SERVER}/two-machines")}


def test_nothing_in_it_is_below_usr_local(package, package_folder):
    run_command(["dpkg-deb", "--extract", package, f"{package_folder}/inside"])
    inside = [f"{package_folder}/inside/{it}" for it in ("usr/bin", "lib", "etc")]
    local = run_command(["grep", "-rlI", "/usr/local/bin", *inside])
    assert_ends(local, 1)


def test_its_programs_run_by_debians_python_with_debians_library(package, package_folder, looked):
    run_command(["dpkg-deb", "--extract", package, f"{package_folder}/programs"])
    folder = f"{package_folder}/programs/usr/bin"
    for name in sorted(os.listdir(f"{SERVER}/bin")):
        with open(f"{folder}/{name}") as kept:
            text = kept.read()
        if name != "index-alarm":
            looked(text.startswith("#!/usr/bin/python3\n") and "sys.path.insert" not in text, name)


def test_lintian_finds_no_error(package):
    want_command("lintian", "lintian")
    assert_ends(run_command(["lintian", "--fail-on", "error", package], 400), 0)


def test_apt_installs_it(life):
    assert_ends(life.installed["apt"], 0, "Setting up package-index (1)")


def test_the_database_is_kept_from_others_and_is_the_indexs_also_on_a_disk_of_its_own(life):
    assert life.installed["modes"].stdout.split() == ["index", "700", "root", "700", "755"]


def test_the_log_of_changes_is_kept_from_others_from_its_first_line(life):
    assert life.installed["log"] == "www-data adm 640\n"


def test_an_upgrade_takes_a_log_of_changes_from_others(life):
    assert life.upgraded["log"] == "root root 640\n"


def test_an_index_is_made_as_the_page_says(life):
    assert_ends(life.installed["init"], 0, "created")


def token_in(ended):
    """The token of the office that a block printed, or None."""
    return re.search("^[0-9a-f]{64}$", ended.stdout, re.M)


def test_a_token_is_printed_only_if_an_index_was_made(life):
    assert token_in(life.installed["init"])
    assert "NotEmpty" in life.installed["init again"].stdout and not token_in(life.installed["init again"])


def test_nginx_takes_its_files(life):
    assert_ends(life.installed["nginx"], 0, "syntax is ok", "test is successful", "server_name packages.example;")


def test_a_full_disk_leaves_the_file_of_nginx_as_it_was(life):
    for said in ("No space left", "server_name packages.example;"):
        assert said in life.installed["full"].stdout


def test_systemd_finds_nothing_in_its_units(life):
    assert (life.installed["verify"].returncode, life.installed["verify"].stdout) == (0, "")


def test_each_unit_reaches_little(life):
    said = life.installed["security"].stdout
    assert said.count("SAFE") > 10 and "FAR" not in said, re.findall(r"^/.*|^→.*", said, re.M)


def test_each_command_tells_its_use(life):
    assert (life.installed["uses"].returncode, life.installed["uses"].stdout) == (0, "")


def test_the_library_is_compiled_as_debians_are(life):
    assert_ends(life.installed["library"], 0, "package_index\n")
    assert int(life.installed["library"].stdout.splitlines()[-1]) >= 7


@pytest.mark.parametrize("word", WORDS)
def test_the_completion_knows_each_word(life, program, word):
    text = run_command([program, *(("help", word) if word else ("--help",))]).stdout
    asked = set(re.findall(r"(?<![\w-])--[a-z-]+\d*", text))
    asked |= set() if word else set(re.findall(r"^  ([a-z]+)  ", text, re.M))
    assert asked and not asked - life.installed["completed"][word]


def test_the_new_program_checks_a_copy_before_an_upgrade(life):
    assert_ends(life.upgraded["before"], 0, "accepted")
    assert_ends(life.upgraded["checked"], 0, "\n0\nschema 3 becomes 3\n")


def test_one_copy_is_left_of_that(life):
    left = life.upgraded["left"]
    assert len([it for it in left if it.endswith(".db")]) == 1 and all(it.startswith("index-") for it in left), left


def test_without_a_package_nothing_is_checked(life):
    said = life.upgraded["torn"].stdout
    assert "becomes" not in said and "\n0\n" not in said


def test_an_upgrade_has_what_was_there(life):
    assert_ends(life.upgraded["apt"], 0)
    assert life.upgraded["version"] == "2" and "before" in life.upgraded["held"]


def test_an_upgrade_restarts_each_service_that_runs(life):
    restarted = re.findall(r"^systemctl try-restart (.*)", life.upgraded["asked"], re.M)
    # (with the timer of backups begins what hangs on it, as that of index-punch)
    assert restarted == ["index.service index@*.service index-legacy-upload.service index-uncache-follow.service "
                         "index-uncache-follow@*.service index-backup.timer "
                         "index-backup@*.timer"], life.upgraded["asked"]


def test_a_file_that_a_person_changed_stays_and_another_is_new(life):
    assert "# mine" in life.upgraded["conf"] and "# of the next version" in life.upgraded["conf"]


def test_the_way_back_has_what_the_new_one_wrote(life):
    assert_ends(life.upgraded["after"], 0, "accepted")
    assert_ends(life.upgraded["back"], 0)
    held = life.upgraded["held by both"]
    assert life.upgraded["old version"] == "1" and "before" in held and "after" in held


def test_copies_stay_if_the_other_disk_is_full(life):
    there, left = life.moved["there"], life.moved["left"]
    assert there and there <= set(left) and "/" not in left[0]


def test_copies_on_another_disk_are_found_where_they_were(life):
    assert_ends(life.moved["ended"], 0)
    assert life.moved["found"][0] == "/mnt/backups/index" and life.moved["there"] <= set(life.moved["found"])


def test_an_upgrade_does_not_want_the_disk_of_the_copies(life):
    assert_ends(life.moved["off"], 0, "Setting up package-index (1)")
    assert life.moved["on"] == life.moved["found"]


@catches("server/bin/index-reseal", '''f"VACUUM INTO '{target}'")''', '''f".backup '{target}'")''')
def test_a_database_is_shrunk_and_has_what_it_had(life):
    assert_ends(life.several["shrunk"], 0)
    assert 0 < life.several["after"] < life.several["before"] - 900_000 and "before" in life.several["held"]


@catches("docs/operators/SCALING.md", "umask 077; index init --db /var/lib/index/$port/index.db",
         "umask 077; index init --db /var/lib/index/index.db")
def test_another_index_is_made(life):
    assert_ends(life.several["other"], 0, "created\n")


@catches("docs/operators/SCALING.md", '| sha256sum | cut -c 1-64)" && echo "$office" &&',
         '| sha256sum | cut -c 1-64)"; echo "$office" &&')
def test_a_token_of_another_index_is_printed_only_if_it_was_made(life):
    again = life.several["other again"]
    assert token_in(life.several["other"]) and "NotEmpty" in again.stdout and not token_in(again)


@catches("docs/operators/SCALING.md", "umask 077; index init --db /var/lib/index/$port/index.db",
         "umask 022; index init --db /var/lib/index/$port/index.db")
def test_another_index_is_kept_from_others(life):
    assert life.several["modes"] == "index 700\nindex 600\n"


@catches("docs/operators/SCALING.md", "systemctl enable --now index@$port.service",
         "systemctl enable index@$port.service")
def test_another_index_is_started(life):
    assert "enable --now index@8081.service index-backup@8081.timer" in life.several["asked"]


@pytest.mark.parametrize("what", ["stop", "disable"])
def test_nothing_is_left_to_stop_or_to_disable(life, what):
    assert_ends(life.removed["remove"], 0, "Removing package-index")
    assert len(life.removed["units"]) > 5 and not set(life.removed["units"]) - life.removed[what]


def test_an_index_of_several_does_not_start_by_itself_after_another_installation(life):
    assert_ends(life.removed["remove"], 0)
    assert {"index@8081.service", "index-health@8081.timer"} <= life.removed["disable"]


def test_what_was_changed_stays_after_a_remove_and_nothing_else(life):
    assert life.removed["stays"] == "/etc/nginx/index/indexes.conf\n" and life.removed["library"] == ""


def test_the_database_the_copies_and_the_user_stay_after_a_purge(life):
    assert_ends(life.removed["purge"], 0, "/var/lib/index with the database")
    left = life.removed["left"]
    assert (left[0], left[-1]) == ("/var/lib/index/index.db", "index") and left[1] != "0"


def test_a_purge_names_the_file_with_which_nginx_does_not_start_again(life):
    assert_ends(life.removed["purge"], 0, "remove /etc/nginx/conf.d/packages.conf too: nginx does not start again")


@catches("tools/package", "if missing:", "if not NEEDED:")
def test_the_commands_that_make_a_package_are_named_if_they_are_missing(tmp_path, monkeypatch):
    for name in ("git", "python3"):
        os.symlink(shutil.which(name), tmp_path / name)
    ended = make_package("/bin/true", str(tmp_path), PATH=str(tmp_path))
    assert_ends(ended, 1, "these are not installed: dh, dpkg-buildpackage, help2man, make, strip")
