"""index-health asks nginx too, as a client would: through TLS, by its name."""
import os
import re
import shutil
import signal
import sys

import pytest
from support.library import front as library
from support.places import SERVER
from support.planted import catches
from support.ports import free_port
from support.running import run_command
from support.server.expected import assert_ends
from support.server.front import WORKERS, Front, has_ipv6, make_certificate, make_chain
from support.server.manager import reload, workers
from support.server.stand_ins import called, stand_ins
from support.server.waits import wait_for
from support.server.watched import HEALTH, look_at_health, unit

HOST = "packages.example"


@pytest.fixture
def named(kept_index, certificate, folder):
    """nginx with a certificate for the name that packages.conf has."""
    os.mkdir(f"{folder}/named")
    with Front(f"{folder}/front", make_certificate(f"{folder}/named", f"DNS:{HOST}"), kept_index.port) as nginx:
        yield nginx


def words_for(front):
    """nginx's file, and the address of the index behind it."""
    with open(f"{front.folder}/index/indexes.conf") as conf:
        address = re.search(r"server (127\.0\.0\.1:\d+)", conf.read())[1]
    return "--front", f"{front.folder}/conf.d/packages.conf", f"http://{address}"


def look(front, *words, patience="60"):
    return run_command([*HEALTH, "--patience", patience, *words, *words_for(front)], 200)


def look_until(status, look, *well):
    """The end of a look with little patience. It is made again if it ends otherwise, or tells of what is well: on a
    busy machine that may be late too."""
    seen = []

    def is_seen():
        seen.append(look())
        return seen[-1].returncode == status and not any(it in seen[-1].stdout for it in well)

    wait_for(is_seen)
    return seen[-1]


@catches("server/lib/package_index/front.py", "server_hostname=front.host)", 'server_hostname="x")')
def test_an_nginx_that_answers_by_its_name_is_well(named):
    assert_ends(look(named), 0)


@catches("server/lib/package_index/front.py",
         'return f"nginx does not answer for {front.host} at port {front.port}: {end!r}"', 'return ""',
         also=["test_an_nginx_that_hangs_is_told"])
@pytest.mark.told("nginx does not answer")
def test_an_nginx_that_is_stopped_is_told_and_the_index_is_not_restarted(named, folder):
    named.process.terminate()
    named.process.wait()

    def looks():
        shutil.rmtree(f"{folder}/bin", ignore_errors=True)
        return look_at_health(stand_ins(f"{folder}/bin", systemctl=""), "--patience", "0.5", *words_for(named))

    ended = look_until(10, looks)
    assert_ends(ended, 10, f"nginx does not answer for {HOST} at port {named.port}: ConnectionRefused")
    assert called(f"{folder}/bin") == ""


@pytest.mark.told("nginx does not answer")
def test_an_nginx_that_hangs_is_told(named):
    assert wait_for(lambda: len(workers(named.process.pid)) == WORKERS)
    for child in [named.process.pid, *map(int, run_command(["pgrep", "-P", str(named.process.pid)]).stdout.split())]:
        os.kill(child, signal.SIGSTOP)
    try:
        assert_ends(look_until(10, lambda: look(named, patience="1")), 10, "nginx does not answer", "TimeoutError")
    finally:
        for child in run_command(["pgrep", "-P", str(named.process.pid)]).stdout.split():
            os.kill(int(child), signal.SIGCONT)
        os.kill(named.process.pid, signal.SIGCONT)


@catches("server/lib/package_index/front.py", "socket.create_connection((front.address, front.port)",
         "socket.create_connection((LOOPBACK, front.port)")
@catches("server/bin/index-health", 'faults += [f"{address}: {found.seen}"] if found.status else []',
         'faults = [f"{address}: {found.seen}"] if found.status else []')
def test_each_nginx_is_asked_at_its_address_and_those_that_are_gone_are_told(named):
    there = ["--at", "127.0.0.1", *(["--at", "::1"] if has_ipv6() else [])]
    assert_ends(look(named, *there), 0)
    words, well = ["--at", "127.0.0.2", *there, "--at", "no-such-front.invalid"], ("127.0.0.1:", "::1:")
    ended = look_until(10, lambda: look(named, *words, patience="2"), *well)
    assert_ends(ended, 10, "127.0.0.2: nginx does not answer for", "no-such-front.invalid: nginx does not answer for")
    assert not any(it in ended.stdout for it in well)


def test_a_certificate_of_one_nginx_of_several_is_told(front):
    assert_ends(look(front, "--at", "127.0.0.1"), 10, f"127.0.0.1: nginx's certificate for {HOST}: Hostname mismatch")


@catches("server/bin/index-health", 'raise Refused(f"{words.front}, which says',
         'return Look(WELL) if words.front else Refused(f"{words.front}, which says')
def test_several_nginx_are_asked_by_a_file_that_is_there(named, folder):
    index = words_for(named)[-1]
    ended = run_command([*HEALTH, "--front", f"{folder}/none.conf", "--at", "127.0.0.1", index])
    assert_ends(ended, 1, f"{folder}/none.conf", "127.0.0.1")
    assert_ends(run_command([*HEALTH, "--at", "127.0.0.1", index]), 2, "--at wants --front")
    assert_ends(run_command([*HEALTH, "--front-only", index]), 2, "--front-only wants --front")


def test_the_unit_for_several_nginx_asks_each_and_reaches_no_other():
    usual, other = unit("index-health.service"), unit("several-fronts.conf")
    asked = re.findall(r"--at (\S+)", other)
    assert f"IPAddressAllow={' '.join(asked)}\n" in other and len(asked) == 2
    rooms = [it for it in re.findall(r"--room \S+", usual) if it != "--room /var/cache/nginx"]
    assert re.findall(r"--room \S+", other) == rooms and "http://127.0.0.1:8080\n" in other


@catches("server/lib/package_index/front.py", "        trust.load_verify_locations(cadata=certificate)",
         "        trust.check_hostname = False; trust.load_verify_locations(cadata=certificate)",
         also=["test_a_certificate_of_one_nginx_of_several_is_told"])
@pytest.mark.told("the certificate has ended")
def test_a_certificate_for_another_name_is_told(front):
    assert_ends(look(front), 10, f"nginx's certificate for {HOST}: Hostname mismatch")


@catches("server/bin/index-health", "fault = fault or fault_of_certificate(front, words.patience, words.days)",
         'fault = fault or ""')
@pytest.mark.told("the certificate has ended")
def test_a_certificate_that_has_ended_is_told(kept_index, certificate, folder):
    os.mkdir(f"{folder}/ended")
    made = make_certificate(f"{folder}/ended", f"DNS:{HOST}")
    again = ["openssl", "x509", "-in", made, "-signkey", f"{folder}/ended/key", "-days", "-1", "-out", made]
    assert_ends(run_command(again), 0)
    with Front(f"{folder}/front", made, kept_index.port) as nginx:
        assert_ends(look(nginx), 10, f"nginx's certificate for {HOST}: certificate has expired")


@catches("server/lib/package_index/front.py", 'if left < days else ""', 'if left < 0 else ""')
@pytest.mark.told("the certificate ends within 21 days")
def test_a_certificate_that_ends_soon_is_told(named):
    assert_ends(look(named, "--days", "1.5"), 0)
    ended = look(named, "--days", "21")
    assert_ends(ended, 10)
    told = ended.stdout.strip()
    assert re.fullmatch(rf"index-health: nginx's certificate for {HOST} ends in 2 days, \w+ .* GMT", told), told
    assert "--days 21\n" in unit("index-certificate.service") and "=1d\n" in unit("index-certificate.timer")


@catches("server/bin/index-health", "if not fault and words.authority:", "if not fault and not words.authority:")
@pytest.mark.told("nginx sends it without its chain")
def test_a_certificate_without_its_chain_is_told(kept_index, certificate, folder):
    """As after cert.pem in the place of fullchain.pem: a leaf that an intermediate authority has signed."""
    chain = make_chain(f"{folder}/chain", HOST)
    for shown, status, said in (("fullchain", 0, []), ("leaf", 10, ["does not lead to", "the whole chain"])):
        os.makedirs(f"{folder}/{shown}")
        shutil.copy(f"{chain}/key", f"{folder}/{shown}/key")
        shutil.copy(f"{chain}/{shown}.pem", f"{folder}/{shown}/pem")
        with Front(f"{folder}/front-{shown}", f"{folder}/{shown}/pem", kept_index.port) as nginx:
            assert_ends(look(nginx, "--authority", f"{chain}/root.pem"), status, *said)
            assert_ends(look(nginx), 0)
    # as the unit's comment has it
    text = unit("index-certificate.service")
    assert '#   Environment="AUTHORITY=--authority /etc/ssl/certs/ca-certificates.crt"\n' in text
    assert "\nEnvironment=AUTHORITY=\n" in text


@catches("server/bin/index-health", 'return Look(BOTH, f"{room.seen}; {front.seen}")', "return room",
         also=["server/test_unit_health.py::test_little_room_hides_no_nginx_that_is_gone"])
@pytest.mark.told("a disk and nginx at once")
def test_little_room_hides_no_nginx_that_is_gone(named, folder):
    named.process.terminate()
    named.process.wait()
    ended = look_until(11, lambda: look(named, "--room", folder, "--least", "99999999", patience="0.5"))
    assert_ends(ended, 11, f"make room: {folder} has", f"nginx does not answer for {HOST}")


@catches("server/bin/index-health", "Look(WELL) if words.front_only else", "")
def test_the_certificate_of_an_nginx_without_an_index_beside_it_is_looked_at(named):
    """As of two machines, behind nginx on a third; and on those two, which have no nginx, nothing is told."""
    words = re.search(r"^ExecStart=\S+ (.*)$", unit("index-certificate.service"), re.M)[1].split()
    # (empty, if nobody names a file of authorities)
    words.remove("$AUTHORITY")
    conf = words.index("/etc/nginx/conf.d/packages.conf")
    nobody = f"http://127.0.0.1:{free_port()}"
    words[conf] = f"{named.folder}/conf.d/packages.conf"
    assert_ends(run_command([*HEALTH, "--patience", "2", *words, nobody]), 10, "ends in 2 days")
    words[conf] = f"{named.folder}/none.conf"
    assert_ends(run_command([*HEALTH, "--patience", "2", *words, nobody]), 0)


@catches("server/lib/package_index/front.py", 'return "" if status in ANSWERS else', 'return "" if status else')
@catches("server/lib/package_index/front.py", "ANSWERS = 200, 401", "ANSWERS = 200, 403")
def test_readers_that_need_a_password_are_no_fault_and_an_answer_of_another_kind_is(named):
    inner = f"{named.folder}/index/server.d/mine.conf"
    for text, status, said in (("auth_basic x; auth_basic_user_file /dev/null;", 0, ""),
                               ("location ^~ /health { return 410; }", 10, f"answers https://{HOST}/health by 410")):
        with open(inner, "w") as made:
            made.write(text)
        conf = f"{named.folder}/conf.d/packages.conf"
        with open(conf) as kept:
            whole = kept.read()
        with open(conf, "w") as made:
            made.write(whole.replace("location = /health {", "location = /well {"))
        reload(named.process.pid)
        assert_ends(look_until(status, lambda: look(named, patience="1")), status, said)


@catches("server/lib/package_index/front.py", "ANSWERS = 200, 401, 507", "ANSWERS = 200, 401")
def test_nginx_tells_that_a_disk_is_full_until_a_look_finds_room(named, folder):
    path, full = stand_ins(f"{folder}/bin", systemctl=""), f"{named.folder}/index-full"
    words = words_for(named)
    for least, status, answer in (("0", 0, 200), ("99999999", 9, 507), ("99999999", 9, 507), ("0", 0, 200)):
        assert_ends(look_at_health(path, "--room", folder, "--least", least, *words, full=full), status)
        curl = ["curl", "-ksw", "%{http_code}", "-o", "/dev/null", f"{named.url}/health"]
        assert_ends(run_command(curl), 0, str(answer))
    assert called(f"{folder}/bin") == ""


@catches("server/lib/package_index/front.py", "except FileNotFoundError:", "except IsADirectoryError:")
def test_no_nginx_of_this_index_is_asked_for_without_its_file(index, folder):
    url = f"http://127.0.0.1:{index.port}"
    assert_ends(run_command([*HEALTH, "--front", f"{folder}/none.conf", url]), 0)


@catches("server/lib/package_index/front.py", r'(\d+)\s+ssl\b"', r'(\d+)"')
@pytest.mark.parametrize("text, found", [
    ("server_name a.b;\n listen 443 ssl;", ("a.b", 443)),
    ("  server_name a.b c.d;\nlisten [::]:8443 ssl http2;", ("a.b", 8443)),
    ("server_name a.b;\nlisten 10.0.0.1:444 ssl;\n", ("a.b", 444)), ("server_name a.b;\nlisten 80;", None),
    ("server_name a.b;\n# listen 443 ssl;", None)])
def test_the_name_and_the_port_are_those_of_the_file(tmp_path, text, found):
    (tmp_path / "conf").write_text(text)
    assert library.front_of(f"{tmp_path}/conf") == (found and library.Front(*found))
    assert library.front_of(f"{SERVER}/nginx/packages.conf") == library.Front(HOST, 443)


@catches("server/lib/package_index/front.py", "    if not host:", "    if False:",
         ("server/lib/package_index/front.py", "int(port[1])) if port else None",
          "int(port[1])) if host and port else None"))
@pytest.mark.parametrize("text", ["", "# server_name a.b;\nlisten 443 ssl;"])
def test_a_file_of_nginx_that_was_cut_off_is_told(index, tmp_path, text):
    (tmp_path / "conf").write_text(text)
    words = [*HEALTH, "--front", f"{tmp_path}/conf", f"http://127.0.0.1:{index.port}"]
    assert_ends(run_command(words), 1, f"{tmp_path}/conf names no server")


def test_the_unit_asks_nginx_and_so_do_its_templates(folder):
    assert "--front /etc/nginx/conf.d/packages.conf" in unit("index-health.service")
    made = shutil.copytree(f"{SERVER}/systemd", f"{folder}/units")
    assert_ends(run_command([sys.executable, f"{SERVER}/debian/templates.py", made]), 0)
    with open(f"{made}/index-health@.service") as kept:
        assert "--front /etc/nginx/conf.d/packages.conf" in kept.read()


def test_an_nginx_that_fails_is_started_again_for_ever():
    with open(f"{SERVER}/systemd/nginx.service.d/package-index.conf") as kept:
        lines = kept.read().splitlines()
    assert {"StartLimitIntervalSec=0", "Restart=on-failure", "RestartSec=5s"} <= set(lines)
    with open(f"{SERVER}/debian/package-index.install") as kept:
        assert "server/systemd/nginx.service.d/*.conf lib/systemd/system/nginx.service.d\n" in kept.read()
