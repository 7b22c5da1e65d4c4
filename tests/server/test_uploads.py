"""`indexctl upload` through nginx, with each of its ends."""
import os
import subprocess

import pytest
from support.planted import catches
from support.server.expected import assert_ends, assert_reply
from support.serving import accepted, free_port, sha256

MOST = 16 << 20


@catches("indexctl/commands/work.py", "if args.dry_run:",
         'if args.dry_run and __import__("os").environ.get("INDEX_URL"):')
def test_a_dry_run_tells_the_files_and_wants_no_address(uploads):
    ended = uploads.run("--dry-run", uploads.dist, INDEX_URL=None, INDEX_TOKEN=None)
    assert_ends(ended, 0, "frob-0.9.tar.gz: frob, ")


@catches("indexctl/commands/work.py", "if args.dry_run:",
         'if args.dry_run and not __import__("os").environ.get("INDEX_URL"):')
@catches("indexctl/changes.py", 'sentence = f"{what}: {status} {answer}. {advice}".rstrip()',
         'sentence = f"{what}: {status} {answer}."',
         also=["TestRefused::test_a_token_of_nobody_is_told_once", "TestRefused::test_a_project_of_others",
               "TestRefused::test_other_bytes_of_a_file_that_is_there", "TestRefused::test_a_banned_file",
               "TestRefused::test_a_full_quota", "TestRefused::test_a_prohibited_name"])
@catches("indexctl/commands/work.py", "return status or (0 if done == len(files) else REFUSED)", "return status",
         also=["TestRefused::test_a_project_of_others", "TestRefused::test_other_bytes_of_a_file_that_is_there",
               "TestRefused::test_a_banned_file", "TestRefused::test_a_full_quota",
               "TestRefused::test_a_prohibited_name"])
def test_a_dry_run_sends_nothing(uploads):
    assert_ends(uploads.run("--dry-run", "--claim", uploads.dist), 0)
    assert_ends(uploads.run(uploads.dist), 1, "NoProject", "--claim", "0 of 3 files are there")


@catches("indexctl/uploads.py", 'if answer == "NoProject" and claims:', 'if answer == "NoProject" and not claims:')
def test_claim_makes_the_projects_that_are_missing(uploads, packages):
    other = [path for path, _ in packages["spam-nest"].values()]
    ended = uploads.run("--claim", uploads.dist, *other)
    assert_ends(ended, 0, "claim frob: accepted", "claim spam_nest: accepted", "5 of 5 files are there")


@catches("indexctl/uploads.py", "if status not in (200, 201):", "if status != 201:")
def test_what_is_there_already_is_well(filled_index, uploads):
    assert_ends(uploads.run(uploads.dist), 0, "is there already", "3 of 3 files are there")


@catches("indexctl/uploads.py", '{"X-Requires-Python": file.requires} if file.requires else {}', "{}")
@catches("indexctl/uploads.py", '{"X-Requires-Python": file.requires} if file.requires else {}',
         '{"X-Requires-Python": file.requires * 600} if file.requires else {}')
def test_a_wheel_tells_its_requires_python_on_the_page(filled_index, uploads, front):
    assert_ends(uploads.run(uploads.wheel("frob", "1.2", requires=">=99")), 0, "frob-1.2")
    page = front.ask("GET", "/simple/frob/", Accept="text/html")
    assert_reply(page, 200, "text/html; charset=utf-8", b'data-requires-python="&gt;=99"')


class TestRefused:
    """What the index refuses ends with status 1, the refusal, and what to do."""

    @catches("indexctl/changes.py", "raise Stop(REFUSED, sentence)", "raise Stop(UNREACHED, sentence)")
    def test_a_token_of_nobody_is_told_once(self, filled_index, uploads):
        assert_ends(uploads.run(uploads.dist, INDEX_TOKEN="x"), 1, "BadToken", "INDEX_TOKEN", "0 of 3")

    def test_a_project_of_others(self, filled_index, uploads):
        accepted(filled_index.request(do="add_user", user="ann", office=False, token_sha256=sha256(b"abc")))
        assert_ends(uploads.run(uploads.wheel("frob", "2.0"), INDEX_TOKEN="abc"), 1, "NotOwner", "add_owner")

    def test_other_bytes_of_a_file_that_is_there(self, filled_index, uploads):
        ended = uploads.run(uploads.wheel("frob", "1.0", more="# other bytes"))
        assert_ends(ended, 1, "FileNameTaken", "Raise the version")

    def test_a_banned_file(self, filled_index, uploads):
        accepted(filled_index.request(do="ban_file", file="frob-1.1-py3-none-any.whl"))
        ended = uploads.run(f"{uploads.dist}/frob-1.1-py3-none-any.whl")
        assert_ends(ended, 1, "FileBanned", "Raise the version")

    def test_a_full_quota(self, filled_index, uploads):
        accepted(filled_index.claim("small"))
        accepted(filled_index.request(do="set_quota", name="small", quota=1))
        assert_ends(uploads.run(uploads.wheel("small", "1.0")), 1, "OverQuota", "quota is full")

    def test_a_prohibited_name(self, filled_index, uploads):
        accepted(filled_index.request(do="prohibit", name="evil"))
        assert_ends(uploads.run("--claim", uploads.wheel("evil", "1.0")), 1, "NameProhibited", "Ask the office")


class TestWrong:
    """What is wrong by itself ends with status 2 before anything goes out."""

    @catches("indexctl/uploads.py", "if normal(self.shown) != self.project:", "if not self.project:")
    @catches("indexctl/uploads.py", "return sorted(read_files(found), key=lambda it: (not it.is_wheel, it.name))",
             "return read_files(found)",
             ("indexctl/commands/work.py", "cases = cases_on(desk, [file.project for file in files])", "cases = {}"))
    def test_another_name_inside_sends_no_file_beside_it(self, filled_index, uploads):
        fine = uploads.wheel("frob", "2.0")
        assert_ends(uploads.run(fine, uploads.wheel("frob", "5.0", inside="spam")), 2, "the name inside is 'spam'")
        assert_reply(filled_index.ask("GET", f"/files/frob/{os.path.basename(fine)}"), 404)

    @catches("indexctl/uploads.py", "if self.size > MOST_BYTES:", "if self.size > 2 * MOST_BYTES:")
    def test_a_file_above_16_mib_sends_no_file_beside_it(self, filled_index, uploads):
        fine = uploads.wheel("frob", "2.0")
        with open(f"{uploads.folder}/frob-6.0.tar.gz", "wb") as large:
            large.truncate(MOST + 1)
        assert_ends(uploads.run(fine, large.name), 2, f"{MOST + 1} bytes")
        assert_reply(filled_index.ask("GET", f"/files/frob/{os.path.basename(fine)}"), 404)

    @catches("indexctl/uploads.py", "except Exception as end:", "except OSError as end:")
    @pytest.mark.parametrize("name", ["frob-7.0.tar.gz", "frob-7.0-py3-none-any.whl"])
    def test_a_file_that_is_no_archive(self, uploads, name):
        with open(f"{uploads.folder}/{name}", "wb") as no_archive:
            no_archive.write(b"no archive")
        assert_ends(uploads.run(no_archive.name), 2, "can't be read")

    @catches("indexctl/uploads.py", 'raise Stop(WRONG, f"{path}: this is not the name of a wheel or of a .tar.gz.")',
             'spelled = read_file_name("frob-7.0.tar.gz")')
    @pytest.mark.parametrize("name, said", [("frob-7.0.zip", ".whl and .tar.gz alone"),
                                            ("frob-7.0.whl", "not the name of a wheel")])
    def test_a_name_of_another_kind(self, uploads, name, said):
        with open(f"{uploads.folder}/{name}", "wb") as archive:
            archive.write(b"an archive")
        assert_ends(uploads.run(archive.name), 2, said)

    @catches("indexctl/settings.py", 'if os.environ.get("INDEX_URL"):',
             'if os.environ.setdefault("INDEX_URL", "https://localhost:9"):', case="no_address")
    @catches("indexctl/settings.py", 'if parts.scheme == "http" and not is_loopback(parts.hostname):',
             "if not parts.scheme:", case="an_address_in_the_clear")
    @catches("indexctl/transport.py", "ssl.create_default_context(cafile=setting.ca)",
             "ssl._create_unverified_context(cafile=setting.ca)", case="an_unknown_certificate")
    @pytest.mark.parametrize("setting, said", [
        ({"INDEX_URL": None}, "INDEX_URL"), ({"INDEX_URL": "http://packages.example"}, "https"),
        ({"INDEX_CA": None}, "INDEX_CA")], ids=["no_address", "an_address_in_the_clear", "an_unknown_certificate"])
    def test_nothing_goes_to(self, uploads, filled_index, setting, said):
        fine = uploads.wheel("frob", "2.0")
        assert_ends(uploads.run(fine, **setting), 2, said)
        assert_reply(filled_index.ask("GET", f"/files/frob/{os.path.basename(fine)}"), 404)


class TestLate:
    """An index that is away is asked again."""

    @catches("indexctl/transport.py", "for trial in range(self.again + 1):",
             "for trial in range(self.again, self.again + 1):",
             also=["TestLate::test_an_index_that_comes_back_gets_the_files"])
    def test_an_index_that_does_not_come_back_ends_with_status_3(self, uploads):
        ended = uploads.run("--again", "1", uploads.dist, INDEX_URL=f"https://127.0.0.1:{free_port()}")
        assert_ends(ended, 3, "Again in", "again later")

    def test_an_index_that_comes_back_gets_the_files(self, filled_index, uploads):
        # past nginx, which would wait in its place
        words, setting = uploads.words(uploads.wheel("frob", "1.3"), INDEX_URL=f"http://127.0.0.1:{filled_index.port}")
        with filled_index.away():
            late = subprocess.Popen(words, stderr=subprocess.PIPE, stdout=subprocess.PIPE,
                                    env={**os.environ, **setting}, text=True)
            # the first line says where to
            asked_again = late.stderr.readline() + late.stderr.readline()
        said = late.communicate(timeout=60)[0]
        assert "Again in" in asked_again
        assert (late.returncode, "1 of 1 files are there" in said) == (0, True), said
