"""What tools/release hands out, and what it refuses to make a release of. The steps are those of one repository."""
from __future__ import annotations

import os
from collections.abc import Iterator

import pytest
from support.needed import want_command
from support.planted import catches
from support.running import run_command
from support.server.expected import assert_ends
from support.server.released import TAG, TEXT, VERSION, Releases
from support.server.stand_ins import written

pytestmark = [pytest.mark.slow, pytest.mark.xdist_group("release"), pytest.mark.timeout(600)]
PROGRAM, PACKAGE = f"index-{VERSION}-amd64", f"package-index_{VERSION}_amd64.deb"
NAMES = ("NOTICES.txt", PROGRAM, "indexctl", f"package-index_{VERSION}_amd64.cdx.json", PACKAGE)


@pytest.fixture(scope="session")
def releases(tmp_path_factory: pytest.TempPathFactory) -> Iterator[Releases]:
    for command, package in (("dh", "debhelper"), ("dpkg-buildpackage", "dpkg-dev"), ("help2man", "help2man"),
                             ("make", "make"), ("strip", "binutils"), ("cc", "gcc"), ("git", "git"),
                             ("gpg", "gnupg")):
        want_command(command, package)
    made = Releases(str(tmp_path_factory.mktemp("release")))
    yield made
    made.end()


@catches("tools/lib/releases.py", 'return CONSTANT.sub(lambda it: f"{it[1]}{told}{it[4]}", source), f"index {told}"',
         'return source, f"index {told}"')
def test_a_release_ends_with_the_command_that_makes_its_tag(releases):
    command = f"git tag --annotate --file {releases.out}/{TAG}.txt {TAG} {releases.commit}\n"
    assert_ends(releases.made, 0, command)


@catches("tools/release", "hashlib.sha256(kept.read())", "hashlib.sha256(kept.read(0))")
def test_its_sums_are_right(releases):
    assert_ends(releases.made, 0)
    summed = run_command(["sh", "-c", 'cd "$1" && sha256sum --check SHA256SUMS', "sh", releases.out])
    assert (summed.returncode, summed.stdout) == (0, "".join(f"{it}: OK\n" for it in NAMES))


@catches("tools/lib/releases.py", 'told = f"{version} (commit {commit}, {found[0][2]})"',
         'told = f"{version} ({found[0][2]})"')
def test_its_program_tells_the_commit_also_in_the_package(releases, tmp_path, looked):
    assert_ends(releases.made, 0)
    told = f"index {VERSION} (commit {releases.commit[:12]}, rattle-kit-"
    run_command(["dpkg-deb", "--extract", f"{releases.out}/{PACKAGE}", str(tmp_path)])
    for path in (f"{releases.out}/{PROGRAM}", f"{tmp_path}/usr/bin/index"):
        said = run_command([path, "--version"]).stdout
        looked(said.startswith(told), path, said, told)


@catches("tools/package", "version = words.version or version_of(made, short)", "version = version_of(made, short)")
def test_its_package_has_the_version(releases):
    assert_ends(releases.made, 0)
    assert_ends(run_command(["dpkg-deb", "--field", f"{releases.out}/{PACKAGE}", "Version"]), 0, VERSION)


@catches("tools/lib/releases.py", r'plain = re.sub(r"\[([^]]*)\]\([^)]*\)", r"\1", notes(changelog, version))',
         "plain = notes(changelog, version)")
def test_the_text_of_its_tag_is_that_of_the_changelog(releases):
    assert_ends(releases.made, 0)
    assert written(f"{releases.out}/{TAG}.txt") == TEXT


@catches("tools/release", '"SOURCE_DATE_EPOCH": moment', '"SOURCE_DATE_EPOCH": str(os.getpid())',
         also=["test_a_release_of_a_program_that_is_built_is_the_same"])
@catches("tools/release", 'git("checkout", "--quiet", "--detach", commit, folder=folder)',
         'git("checkout", "--quiet", "--detach", folder=folder)')
def test_a_release_made_again_from_its_tag_is_the_same(releases):
    assert_ends(releases.again, 0)
    assert releases.sums("first") and releases.sums("first") == releases.sums("again")


def test_a_release_is_checked_by_the_lines_of_the_page(releases):
    assert_ends(releases.checked, 0, "".join(f"{it}: OK\n" for it in NAMES), f" {TAG} {releases.commit}\n")
    assert releases.sums("first") and releases.sums("first") == releases.sums("checked")


@catches("tools/release", "if changed:", "if not commit_of:", also=["test_nothing_is_made_of_what_is_refused"])
@catches("tools/release", 'if tag in git("tag", "--list", tag).split() and words.commit != tag:', "if not tag:")
@catches("tools/lib/releases.py", 'raise Refused(f"CHANGELOG.md has no section for {version}")',
         r'return "- What it is.\n"')
@catches("tools/lib/releases.py", "if named == version and day == NOT_YET:", "if named == version and not day:")
@catches("tools/lib/releases.py", "if len(found) != 1 or found[0][1] != version:", "if len(found) != 1:")
@catches("tools/release", "if tells != told:", "if not told:")
@catches("tools/release", "if os.path.lexists(out):", "if not out:")
@pytest.mark.parametrize("what, said", [
    ("a tag that is there", f"there is a tag {TAG}"), ("no section", "has no section for 9.8.8"),
    ("another constant", f"has the version {VERSION}, not 9.8.6"), ("changes", "not committed"),
    ("changes", "CHANGELOG.md"), ("not yet released", f"{VERSION} is not yet released"),
    ("another commit", "the program tells"), ("a folder that is there", "is there already")])
def test_what_is_no_release_is_refused(releases, what, said):
    assert_ends(releases.refused[what], 1, said)


def test_nothing_is_made_of_what_is_refused(releases):
    assert not releases.refused["made"]


@catches("tools/release", 'words = ["rt", "ci"] if is_of_gate else [f"{tree}/tools/build"]',
         'words = [f"{tree}/tools/build"]')
def test_a_release_that_the_gate_proves_is_the_same(releases):
    assert_ends(releases.of_the_gate, 0, f" {TAG} {releases.commit}\n")
    assert releases.sums("first") and releases.sums("first") == releases.sums("gate")
    assert os.path.exists(f"{releases.folder}/called")


@catches("tools/release", '''raise Refused(f"the program was not built: {' '.join(words)} failed")''',
         'subprocess.run([f"{tree}/tools/build"], cwd=tree, check=False)')
def test_a_proof_that_fails_makes_no_release(releases):
    assert releases.of_the_gate
    assert_ends(releases.refused["a proof that fails"], 1, "the program was not built: rt ci failed")
    assert not os.path.exists(releases.none)


@catches("tools/release", "os.makedirs(out)", "os.makedirs(out, exist_ok=True)")
@catches("tools/release", "except FileExistsError:", "except EOFError:")
def test_a_folder_that_was_made_meanwhile_is_left_as_it_is(releases):
    assert releases.of_the_gate
    taken = f"{releases.folder}/taken"
    ended = releases.refused["a folder made meanwhile"]
    assert (ended.returncode, ended.stdout) == (1, f"release: {taken} was made by another command meanwhile\n")
    assert os.listdir(taken) == []


@catches("tools/release", "built = words.program or build(tree, words.reuse, words.gate)",
         'built = words.program and f"{words.program}.none" or build(tree, words.reuse, words.gate)')
def test_a_release_of_a_program_that_is_built_is_the_same(releases):
    assert_ends(releases.of_a_program, 0, f" {TAG} {releases.commit}\n")
    assert releases.sums("first") and releases.sums("first") == releases.sums("built")


@catches("tools/release", 'sign(words.sign, f"{out}/SHA256SUMS")', "pass")
def test_a_signed_release_is_checked_by_the_key_alone(releases):
    assert_ends(releases.signed, 0, f" {TAG} {releases.commit}\n")
    folder, keys = f"{releases.folder}/signed", {"GNUPGHOME": releases.keys}
    verify = ["gpg", "--verify", f"{folder}/SHA256SUMS.asc", f"{folder}/SHA256SUMS"]
    assert "Good signature" in run_command(verify, **keys).stdout
    with open(f"{folder}/SHA256SUMS", "a", encoding="utf-8") as sums:
        sums.write("more\n")
    assert_ends(run_command(verify, **keys), 1, "BAD signature")
    assert_ends(releases.refused["a key that is not there"], 1, "gpg has no secret key nobody@example.org")
    assert not os.path.exists(releases.none)
