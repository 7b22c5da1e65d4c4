"""Blocks of the pages of operators, pasted on a machine that systemd started: as they stand, and cut off in their
midst. Nothing is lost, and no index stays off."""
from __future__ import annotations

import pytest
from support.server.pasted import block
from support.server.waits import wait_for

pytestmark = [pytest.mark.slow, pytest.mark.by_turns("machine"), pytest.mark.xdist_group("machine"),
              pytest.mark.timeout(900)]
RESEAL, MIGRATE = block("(\n    trap", "index-reseal"), block("(\n    trap", "index-migrate")
BACK = MIGRATE.replace("--volume", "--one-file")
# in front of a program of the package, whose `index` tells when it begins, and then takes its time
SLOW = """cd /usr/sbin
printf '#!/bin/sh\nINDEX=/root/slow exec /usr/bin/{name} "$@"\n' > {name}
printf '#!/bin/sh\ntouch /run/begun\nsleep 30\nexec /usr/bin/index "$@"\n' > /root/slow
chmod 755 {name} /root/slow"""


def test_the_page_turns_on_what_tells_and_what_forgets(machine):
    units = ("index.service", "index-uncache-follow.service", *(f"index-{it}.timer" for it in (
        "health", "alarms", "backup", "certificate")))
    # its status is 0 if one of them is
    assert machine.sh(f"systemctl is-active {' '.join(units)}").stdout.split() == ["active"] * len(units)


@pytest.fixture
def one_file(machine):
    """The machine, whose index has one file: in the end it has a volume again, as the page made it."""
    machine.paste(BACK)
    machine.sh("rm -rf /run/begun /var/lib/index/sealed.db /var/lib/index/before-*")
    yield machine
    machine.paste(MIGRATE)
    machine.sh("rm -rf /var/lib/index/sealed.db /var/lib/index/before-*")


def test_a_reseal_as_the_page_has_it_ends_well(one_file):
    said = one_file.paste(RESEAL)
    assert "with page sums" in said and "the index answers" in said and one_file.has_kept()


@pytest.mark.parametrize("end", ["INT", "HUP"])
def test_a_reseal_that_is_cut_off_leaves_no_index_off_and_loses_nothing(one_file, end):
    one_file.sh(SLOW.format(name="index-reseal"))
    said = one_file.paste(RESEAL, end, "test -e /run/begun")
    one_file.sh("rm /usr/sbin/index-reseal")
    assert wait_for(lambda: one_file.sh("systemctl is-active index").returncode == 0, 60), said
    assert one_file.has_kept() and one_file.sh("ls -d /var/lib/index/sealed.db").returncode


def test_an_index_is_moved_as_the_page_has_it_and_a_second_time_nothing_is_done(one_file):
    assert "index.db-volume; what was there is in " in one_file.paste(MIGRATE) and one_file.has_kept()
    assert "index.db-volume already" in one_file.paste(MIGRATE) and one_file.has_kept()
    assert one_file.sh("systemctl start index-backup && ls /var/backups/index/*.volume").returncode == 0
    assert "in /var/lib/index/index.db itself; what was there" in one_file.paste(BACK) and one_file.has_kept()
    # each unit that was there before goes on
    assert one_file.sh("systemctl is-active index-health.timer index-backup.timer").returncode == 0


def test_a_move_by_a_wrong_path_changes_nothing_and_the_index_goes_on(one_file):
    said = one_file.paste(MIGRATE.replace("/var/lib/index/", "/var/lib/indexes/"))
    assert "/var/lib/indexes: no such folder" in said and one_file.has_kept()


@pytest.mark.parametrize("end", ["INT", "HUP"])
def test_a_move_that_is_cut_off_leaves_no_index_off_and_loses_nothing(one_file, end):
    one_file.sh(SLOW.format(name="index-migrate"))
    said = one_file.paste(MIGRATE, end, "test -e /run/begun")
    one_file.sh("rm /usr/sbin/index-migrate")
    assert wait_for(lambda: one_file.sh("systemctl is-active index").returncode == 0, 60), said
    assert one_file.has_kept() and one_file.sh("ls /var/lib/index | grep -v '^index.db'").returncode, said


def test_a_second_index_at_the_same_port_is_no_success_and_is_told(machine):
    machine.sh("install -d -o index -g index -m 700 /var/lib/index/8080")
    ended = machine.sh("timeout 60 systemctl start index@8080; echo status $?; systemctl stop index@8080; "
                       "journalctl -u index@8080 -o cat")
    assert "status 0" not in ended.stdout and "another program has port 8080" in ended.stdout, ended.stdout
