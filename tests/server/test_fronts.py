"""Several nginx before one index: what is removed through one goes out of each cache, also if that nginx was off."""
import os
import sys
import time
from contextlib import ExitStack, contextmanager

import pytest
from support.library import fronts
from support.places import BIN
from support.planted import catches
from support.running import run_command
from support.server.expected import assert_ends, assert_reply
from support.server.front import Front, kept, make_certificate
from support.server.waits import wait_for
from support.server.watched import unit
from support.serving import Running, accepted, sha256

HOST = "packages.example"
FILES = "frob-8.0.tar.gz", "frob-8.1+fix.1.tar.gz", "frob-8.2-py3-none-any.whl", "frob-9.0.tar.gz"
# what OPERATING promises, and what a busy machine may take
SOON, PATIENCE = 2, 60


class Machine:
    """An nginx before the index with its own cache, and the runs of index-uncache-follow on its machine."""

    def __init__(self, folder, certificate, port):
        self.folder, self.certificate = folder, certificate
        self.nginx = Front(folder, certificate, port)
        self.nginx.put("index/server.d/fronts.conf", kept("fronts.conf"), **{
            "allow 192.0.2.1;": "allow 127.0.0.1;", "/var/lib/index-uncache/": f"{folder}/"})

    def words(self, other=None, *more):
        """Of a run that reads the log of this nginx, or the list of another one."""
        place = f"{self.folder}/{'of-other' if other else 'place'}"
        read = (["--front", "127.0.0.1", "--conf", f"{other.folder}/conf.d/packages.conf"] if other
                else ["--log", f"{self.folder}/index-changes.log"])
        return [sys.executable, "-B", f"{BIN}/index-uncache-follow", "--cache", f"{self.folder}/cache/index-files",
                "--place", place, *read, *more]

    @contextmanager
    def following(self, *of, again="3600"):
        """Such runs as long as the block lasts."""
        setting = {**os.environ, "SSL_CERT_FILE": self.certificate}
        with ExitStack() as running, open(f"{self.folder}/followed", "a") as said:
            for other in of:
                words = self.words(other, "--again", again)
                running.enter_context(Running(words, stdout=said, stderr=said, env=setting))
            yield

    def run(self, *words):
        return run_command(self.words(*words), SSL_CERT_FILE=self.certificate)

    def said(self):
        with open(f"{self.folder}/followed") as kept_lines:
            return kept_lines.read()

    def has(self, file):
        return self.nginx.ask("GET", address(file))[0] == 200

    def soon_lacks(self, *files):
        """Whether none of these comes from here, before long, and how many seconds that took."""
        begun = time.monotonic()
        return wait_for(lambda: not any(map(self.has, files)), PATIENCE), time.monotonic() - begun


def address(file):
    return f"/files/frob/{file.replace('+', '%2B')}"


def delete(machine, file):
    accepted(machine.nginx.ask("DELETE", address(file), X_Index_Token="office", X_Index_SHA256=sha256(b"new")))


@pytest.fixture
def named(certificate, folder):
    os.mkdir(f"{folder}/named")
    return make_certificate(f"{folder}/named", f"DNS:{HOST},IP:127.0.0.1")


@pytest.fixture
def both(kept_index, named, folder):
    """Two nginx, each of which keeps four files of a project."""
    one, two = (Machine(f"{folder}/{it}", named, kept_index.port) for it in ("one", "two"))
    with one.nginx, two.nginx:
        accepted(one.nginx.claim("frob"))
        for file in FILES:
            accepted(one.nginx.upload("frob", file, b"new"))
            for it in one, two:
                assert_reply(it.nginx.ask("GET", address(file)), 200, None, b"new")
        yield one, two
        assert not one.nginx.errors() + two.nginx.errors()


@catches("server/bin/index-uncache-follow", 'fronts.add_line(beside(words.place, "removed"), line)', "pass",
         also=["test_one_that_was_off_serves_nothing_that_was_removed_meanwhile",
               "test_one_that_is_gone_is_told_and_its_list_is_read_once_it_is_back",
               "server/test_front_stops.py::test_stopped_at_each_step_a_second_run_does_all[of_a_log-9]"])
def test_what_is_removed_through_one_goes_out_of_the_other_too(both, looked):
    one, two = both
    with one.following(None, two), two.following(None, one):
        delete(one, FILES[1])
        is_gone, took = two.soon_lacks(FILES[1])
        looked(is_gone and one.soon_lacks(FILES[1])[0], took)
        accepted(two.nginx.request(do="ban_file", file=FILES[2]))
        looked(one.soon_lacks(FILES[2])[0] and two.soon_lacks(FILES[2])[0])
        looked(one.has(FILES[0]) and two.has(FILES[0]))
        accepted(one.nginx.request(do="prohibit", name="frob"))
        looked(two.soon_lacks(FILES[0], FILES[3])[0])
        print(f"a deleted file was gone from the other nginx after {took:.1f} s")


def test_without_its_list_the_other_keeps_what_was_removed(both):
    one, two = both
    with one.following(None), two.following(None):
        delete(one, FILES[0])
        assert one.soon_lacks(FILES[0])[0]
        time.sleep(SOON)
        assert two.has(FILES[0])


@catches("server/lib/package_index/fronts.py", "return found[1:] if found", "return found[-1:] if found",
         also=["server/test_unit_fronts.py::test_the_lines_behind_a_place_are_those_of_the_same_list"])
def test_one_that_was_off_serves_nothing_that_was_removed_meanwhile(both):
    one, two = both
    with one.following(None):
        with two.following(one, again="0"):
            delete(one, FILES[0])
            assert two.soon_lacks(FILES[0])[0] and wait_for(lambda: os.path.exists(f"{two.folder}/of-other"))
        two.nginx.__exit__()
        delete(one, FILES[1])
        accepted(one.nginx.request(do="ban_file", file=FILES[2]))
        # before a file goes it stands in the list
        assert one.soon_lacks(FILES[1], FILES[2])[0]
        with two.nginx:
            assert two.has(FILES[1]) and two.has(FILES[2])
            with two.following(one):
                assert two.soon_lacks(FILES[1], FILES[2])[0] and two.has(FILES[3])


@catches("server/lib/package_index/fronts.py", "raise Refused(why) from None", "return",
         also=["test_an_nginx_that_gives_no_list_is_told",
               "server/test_unit_fronts.py::test_a_failure_is_told_once_and_refused_after_the_patience"])
def test_one_that_is_gone_is_told_and_its_list_is_read_once_it_is_back(both):
    one, two = both
    with one.following(None), two.following(one):
        delete(one, FILES[0])
        assert two.soon_lacks(FILES[0])[0]
        one.nginx.__exit__()
        said = "no list of what 127.0.0.1 has removed: ConnectionRefusedError"
        assert wait_for(lambda: said in two.said()) and "asking for 60 s" in two.said()
        assert_ends(two.run(one, "--patience", "0", "--place", f"{two.folder}/third"), 1, said)
        with one.nginx:
            delete(one, FILES[1])
            assert two.soon_lacks(FILES[1])[0]
        # the block of the fixture ends it once more
        one.nginx.__enter__()


@catches("server/lib/package_index/fronts.py", "if reply.status not in (200, 206,", "if reply.status in (",
         also=["server/test_unit_fronts.py::test_another_answer_is_refused"])
@pytest.mark.parametrize("change, said", [
    (("allow 127.0.0.1;", ""), "it answers 403: its fronts.conf does not allow this machine"),
    (("location = /fronts/removed", "location = /fronts/none"), "it answers 404: it has no fronts.conf, or no")])
def test_an_nginx_that_gives_no_list_is_told(both, change, said):
    one, two = both
    with open(f"{one.folder}/index/server.d/fronts.conf") as conf:
        text = conf.read()
    with one.following(None):
        one.nginx.__exit__()
        one.nginx.put("index/server.d/fronts.conf", text.replace(*change))
        one.nginx.__enter__()
        assert_ends(two.run(one, "--patience", "0"), 1, said)


@catches("server/lib/package_index/fronts.py", "ssl.create_default_context(), time",
         "ssl._create_unverified_context(), time")
def test_an_nginx_that_another_authority_has_signed_is_not_believed(both, folder):
    one, two = both
    os.mkdir(f"{folder}/other")
    other = make_certificate(f"{folder}/other", f"DNS:{HOST}")
    ended = run_command(two.words(one, "--patience", "0"), SSL_CERT_FILE=other)
    assert_ends(ended, 1, "no list of what 127.0.0.1 has removed", "self-signed certificate")


@catches("server/bin/index-uncache-follow", "if not own:", "if own is ...:")
def test_an_address_that_is_none_is_told(both):
    one, two = both
    words = [no if it == "127.0.0.1" else it for it in two.words(one, "--patience", "0")
             for no in ["no-such-front.invalid"]]
    assert_ends(run_command(words), 1, "no list of what no-such-front.invalid has removed: gaierror")
    none = run_command([*two.words(one), "--conf", f"{two.folder}/none.conf"])
    assert_ends(none, 1, f"{two.folder}/none.conf, which says what to ask for at 127.0.0.1, is not there or has no TLS")


@catches("server/lib/package_index/fronts.py", "if found and found[0][1] == place else None", "if found else None",
         also=["server/test_unit_fronts.py::test_the_lines_behind_a_place_are_those_of_the_same_list"])
def test_a_list_that_another_has_replaced_is_read_from_its_start(both):
    one, two = both
    with two.following(one):
        with one.following(None):
            delete(one, FILES[0])
            assert two.soon_lacks(FILES[0])[0]
        # as of a machine that was made again: it is longer, and has another line there
        os.remove(f"{one.folder}/removed")
        for file in FILES[1:3]:
            delete(one, file)
            fronts.add_line(f"{one.folder}/removed", '{"status":200,"method":"DELETE","path":"%s"}' % address(file))
        assert two.soon_lacks(*FILES[1:3])[0]


def test_a_list_is_given_beside_a_password_for_readers(kept_index, named, folder):
    machine = Machine(f"{folder}/one", named, kept_index.port)
    machine.nginx.put("index/server.d/password.conf", kept("password.conf"),
                      **{"/etc/nginx/index/readers.htpasswd": "/dev/null"})
    fronts.add_line(f"{folder}/one/removed", "{}")
    with machine.nginx:
        assert machine.nginx.ask("GET", "/simple/frob/")[0] == 401
        assert_reply(machine.nginx.ask("GET", fronts.ADDRESS), 200, "text/plain", b"{}\n")


class TestFiles:
    """fronts.conf and the units."""

    def test_nobody_else_reads_the_list(self):
        text = kept("fronts.conf")
        assert text.count("    allow ") == 2 and text.index("deny all;") > text.rindex("    allow ")
        assert "alias /var/lib/index-uncache/removed;" in text and f"location = {fronts.ADDRESS} {{" in text

    def test_nginx_may_read_what_the_follower_writes_and_others_not(self):
        text = unit("index-uncache-follow.service")
        for line in ("Group=www-data", "UMask=0027", "StateDirectoryMode=0750"):
            assert f"\n{line}\n" in text

    def test_the_unit_of_another_nginx_tells_and_is_started_again(self):
        service, timer = unit("index-uncache-follow@.service"), unit("index-uncache-follow@.timer")
        for line in ("OnFailure=index-alarm@%n.service", "PartOf=index-uncache-follow@%i.timer", "User=www-data",
                     "ExecStart=/usr/local/bin/index-uncache-follow --front %i --place /var/lib/index-fronts/%i",
                     "StateDirectory=index-fronts", "ReadWritePaths=-/var/cache/nginx"):
            assert f"\n{line}\n" in service
        assert "\nIPAddressDeny=any\n" in service
        assert "\nIPAddressAllow=192.0.2.1 192.0.2.2\n" in unit("other-fronts.conf")
        # one that restarts by itself never fails
        assert "Restart=" not in service and "\nOnActiveSec=1s\nOnUnitInactiveSec=10s\n" in timer
