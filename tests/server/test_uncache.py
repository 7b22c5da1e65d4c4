"""A banned file goes out from nginx's cache until `index-uncache` takes it out of there."""
import sys

import pytest
from support.places import BIN
from support.planted import catches
from support.running import run_command
from support.server.expected import assert_ends, assert_reply
from support.serving import accepted

BANNED = "/files/frob/frob-8.0.tar.gz"
OTHERS = "frob-8.1+fix.1.tar.gz", "frob-8.2.tar.gz", "frob-8.3.tar.gz"


@pytest.fixture
def cached(front):
    """nginx keeps four files of a project, of which one is banned."""
    accepted(front.claim("frob"))
    for file in ("frob-8.0.tar.gz", *OTHERS):
        accepted(front.upload("frob", file, b"new"))
        assert_reply(front.ask("GET", f"/files/frob/{file.replace('+', '%2B')}"), 200, None, b"new")
    accepted(front.request(do="ban_file", file="frob-8.0.tar.gz"))
    return front


@pytest.fixture
def uncache(cached):
    def run(*words, cache=f"{cached.folder}/cache/index-files"):
        return run_command([sys.executable, f"{BIN}/index-uncache", "--cache", cache, *words])
    return run


@catches("server/bin/index-uncache", "exact = place_of_file(cache, project, file)",
         'exact = place_of_file(cache, "x", file)',
         ("server/bin/index-uncache", 'front = f"/files/{project}/"', 'front = f"/file/{project}/"'),
         also=["test_other_spellings_are_the_same_file", "test_all_files_of_a_project_go_at_once",
               "test_a_file_that_is_not_there_ends_with_status_1_and_tells_the_others"])
@catches("server/bin/index-uncache", "os.remove(path)", "os.stat(path)",
         also=["test_all_files_of_a_project_go_at_once"])
def test_nginx_has_a_banned_file_until_it_is_taken_out(cached, uncache):
    assert_reply(cached.ask("GET", BANNED), 200, None, b"new")
    assert_ends(uncache("frob", "frob-8.0.tar.gz"), 0, f"removed {BANNED}\n")
    assert_reply(cached.ask("GET", BANNED), 404, None, b"NoFile")


@catches("server/bin/index-uncache", "return 0 if wanted else 1", "return 0")
@pytest.mark.told("`index-uncache` finds nothing")
def test_a_file_that_is_not_there_ends_with_status_1_and_tells_the_others(uncache, looked):
    ended = uncache("frob", "frob-8.tar.gz")
    assert_ends(ended, 1, "nginx keeps no /files/frob/frob-8.tar.gz", *OTHERS[1:])
    looked("removed" not in ended.stdout, ended.stdout)


@catches("server/bin/index-uncache", "from package_index.names import normal", "normal = str")
def test_other_spellings_are_the_same_file(uncache):
    ended = uncache("FROB", "https://x/files/frob/Frob-8.1%2bfix.1.tar.gz")
    assert_ends(ended, 0, f"removed /files/frob/{OTHERS[0]}\n")


@catches("server/bin/index-uncache", 'if "/" in name:', "if not name:",
         also=["server/test_unit_health.py::test_a_file_or_all_of_a_project_are_taken_out"])
def test_an_address_alone_is_enough(cached, uncache):
    assert_ends(uncache(BANNED), 0, f"removed {BANNED}\n")
    assert_reply(cached.ask("GET", BANNED), 404, None, b"NoFile")


def test_all_files_of_a_project_go_at_once(cached, uncache):
    for file in OTHERS[1:]:
        accepted(cached.request(do="ban_file", file=file))
    assert_ends(uncache("Frob"), 0, *(f"removed /files/frob/{file}\n" for file in OTHERS[1:]))
    assert [cached.ask("GET", f"/files/frob/{file}")[0] for file in OTHERS[1:]] == [404, 404]


@catches("server/bin/index-uncache",
         '''raise FileNotFoundError(f"{words.cache} is not there; name nginx's folder by --cache")''', "pass")
@pytest.mark.told("`index-uncache` finds nothing")
def test_a_folder_that_is_not_there_is_told(cached, uncache):
    assert_ends(uncache("frob", cache=f"{cached.folder}/none"), 2, "is not there")
