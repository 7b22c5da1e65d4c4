"""local-users.nft keeps people with an account from the ports of the index, and lets nginx and the units go on."""
from __future__ import annotations

import pytest
from support.needed import want_command
from support.places import SERVER
from support.running import run_command

RULES = f"{SERVER}/nftables/local-users.nft"
# a network of its own, in which somebody listens at this port; as a user, this address is asked for
ASKS = """ip link set lo up && nft -f "$1" && nft -f "$1" || exit 9
python3 -S -m http.server --bind 127.0.0.1 "$3" > /dev/null 2>&1 & server=$!
until ss -Hltn "sport = :$3" | grep -q .; do sleep 0.1; done
setpriv --reuid "$2" --clear-groups curl -sS -o /dev/null -w '%{http_code}' "http://127.0.0.1:$3/"; status=$?
kill $server
exit $status"""
# as a user, somebody listens at this port, prints what comes and goes; nginx' user asks, and waits for that once it is
# connected, which the kernel does by itself
ANSWERS = """ip link set lo up && nft -f "$1" || exit 9
setpriv --reuid "$2" --clear-groups /usr/bin/python3 -S -c '
import socket, sys
peer = socket.create_server(("127.0.0.1", int(sys.argv[1]))).accept()[0]
print(peer.recv(1000), flush=True)' "$3" & server=$!
until ss -Hltn "sport = :$3" | grep -q .; do sleep 0.1; done
setpriv --reuid 33 --clear-groups curl -sS --connect-timeout 3 -m 50 -H "X-Index-Token: token" "http://127.0.0.1:$3/"
kill $server
exit 0"""


def run_alone(script, *words):
    want_command("nft", "nftables")
    if run_command(["unshare", "--net", "nft", "add", "table", "inet", "x"]).returncode:
        pytest.skip("this machine lets nobody make a network of its own")
    return run_command(["unshare", "--net", "sh", "-c", script, "sh", RULES, *map(str, words)])


@pytest.mark.parametrize("user, port, is_let_in", [
    (0, 8080, True), (33, 8080, True), (999, 8080, True), (61_184, 8080, True), (1_000, 8080, False),
    (59_999, 8080, False), (1_000, 8079, False), (1_000, 8090, False), (1_000, 8443, True), (65_534, 8080, True),
    (65_536, 8080, False), (100_000, 8080, False), (1_234_500_000, 8080, False)])
def test_people_are_kept_from_the_ports_of_the_index(user, port, is_let_in):
    """Also those of a directory, and those that a person is in a container."""
    ended = run_alone(ASKS, user, port)
    assert (ended.returncode, "200" in ended.stdout) == ((0, True) if is_let_in else (7, False)), ended.stdout


@pytest.mark.parametrize("user, port, is_heard", [
    (999, 8080, True), (61_184, 8090, True), (1_000, 8080, False), (100_000, 8090, False), (1_000, 8443, True)])
def test_no_person_answers_at_a_port_of_the_index_in_its_place(user, port, is_heard):
    """As while it starts again: nginx would give them the tokens that come."""
    ended = run_alone(ANSWERS, user, port)
    assert ("token" in ended.stdout) == is_heard, ended.stdout
