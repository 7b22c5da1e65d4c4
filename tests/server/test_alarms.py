"""index-alarm writes to the journal, and sends one mail an hour for each cause of each unit."""
import glob
import os
import re
import socket
import time

import pytest
from support.places import BIN, SERVER
from support.running import run_command
from support.server.expected import assert_ends
from support.server.stand_ins import called, stand_ins, written
from support.server.watched import unit

YOU = "you@example.org"


@pytest.fixture
def bin_folder(folder):
    return f"{folder}/bin"


@pytest.fixture
def alarm(bin_folder, folder):
    """Runs index-alarm for a unit. What is mailed is added to the file `mail`."""
    path = stand_ins(bin_folder, logger="", systemctl="echo the last lines", sendmail=f'cat >> "{folder}/mail"',
                     journalctl='[ "$1" = --sync ] || printf "%s\\n" "$SAID"')

    def run(*words, of="index-backup.service", **setting):
        setting = {"PATH": path, "RUNTIME_DIRECTORY": folder, "MONITOR_INVOCATION_ID": "5e", "SAID": "", **setting}
        return run_command([f"{BIN}/index-alarm", *words, of], **setting)
    return run


def test_an_alarm_stands_in_the_journal(alarm, bin_folder):
    assert_ends(alarm(), 0)
    said = called(bin_folder)
    assert said.startswith("logger --priority daemon.alert") and "index-backup.service failed" in said, said


def test_no_mail_goes_to_nobody(alarm, bin_folder):
    assert_ends(alarm("--mail"), 0)
    assert "sendmail" not in called(bin_folder)


def test_one_mail_goes_out_for_two_alarms_in_an_hour(alarm, folder):
    for _ in range(2):
        assert_ends(alarm("--mail", ALARM_MAIL=YOU), 0)
    mail = written(f"{folder}/mail")
    subject = f"Subject: {socket.gethostname()}: index-backup.service failed"
    assert mail.startswith(f"To: {YOU}\n{subject}\n\n") and "the last lines" in mail, mail
    assert mail.count("To:") == 1, mail


def test_a_mail_of_a_clock_that_was_ahead_holds_up_no_other(alarm, folder):
    assert_ends(alarm("--mail", ALARM_MAIL=YOU), 0)
    stamp, = glob.glob(f"{folder}/index-backup.service-*")
    os.utime(stamp, (time.time() + 86_400,) * 2)
    assert_ends(alarm("--mail", ALARM_MAIL=YOU), 0)
    assert written(f"{folder}/mail").count("To:") == 2


def test_each_alarm_of_index_alarms_is_a_mail_and_not_each_end_of_it(alarm, folder):
    """It tells each once a day, and ends with status 9 then."""
    for status, mails in ((9, 1), (9, 2), (1, 3), (1, 3)):
        assert_ends(alarm("--mail", of="index-alarms.service", ALARM_MAIL=YOU, MONITOR_EXIT_STATUS=str(status)), 0)
        assert written(f"{folder}/mail").count("To:") == mails, status
    for mails in (4, 4):
        # status 9 of another is that of a disk, each minute
        assert_ends(alarm("--mail", of="index-health.service", ALARM_MAIL=YOU, MONITOR_EXIT_STATUS="9"), 0)
        assert written(f"{folder}/mail").count("To:") == mails


def subjects(folder):
    return re.findall(r"^Subject: [^:]*: (.*)$", written(f"{folder}/mail"), re.M)


def test_the_subject_is_why_it_failed_and_each_new_cause_is_a_mail(alarm, folder, bin_folder):
    """As the last line of the unit says. Another number in it is no other cause."""
    causes = ["index-health: make room: /var has 12 MiB left", "index-health: make room: /var has 9 MiB left",
              "index-health: nginx does not answer\r\nBcc: x", "index-health: make room: /srv has 9 MiB left"]
    for said, status in zip(causes, ("9", "9", "10", "9")):
        setting = {"ALARM_MAIL": YOU, "MONITOR_EXIT_STATUS": status, "SAID": said}
        assert_ends(alarm("--mail", of="index-health.service", **setting), 0)
    assert subjects(folder) == [causes[0], "Bcc: x", causes[3]]
    assert "--lines 1 _SYSTEMD_INVOCATION_ID=5e" in called(bin_folder)


@pytest.mark.told("another unit failed")
def test_a_unit_without_a_line_is_named_with_how_it_ended(alarm, folder):
    assert_ends(alarm("--mail", ALARM_MAIL=YOU, MONITOR_SERVICE_RESULT="oom-kill"), 0)
    assert subjects(folder) == ["index-backup.service failed (oom-kill)"]


def test_a_unit_with_a_new_cause_each_time_sends_six_mails_an_hour(alarm, folder):
    for at in range(8):
        assert_ends(alarm("--mail", ALARM_MAIL=YOU, SAID=f"why {'x' * at}"), 0)
    assert len(subjects(folder)) == 6
    assert_ends(alarm("--mail", of="index.service", ALARM_MAIL=YOU, SAID="why"), 0)
    assert len(subjects(folder)) == 7


def test_what_was_told_is_kept_also_where_no_mail_goes_out(alarm, folder):
    """By it index-alarms tells that the unit is well again. A drill is no unit."""
    assert_ends(alarm("--mail"), 0)
    assert_ends(alarm("--mail", of="drill-disk-1"), 0)
    assert [os.path.basename(it).rpartition("-")[0] for it in glob.glob(f"{folder}/*-*")] == ["index-backup.service-"]


@pytest.mark.told("a mail of `index-alarm` does not go out")
def test_a_mail_that_did_not_go_out_fails_and_goes_out_at_the_next_alarm(alarm, folder):
    broken = f"{stand_ins(f'{folder}/broken', sendmail='exit 1', systemctl='')}"
    assert_ends(alarm("--mail", ALARM_MAIL=YOU, PATH=broken), 1)
    assert_ends(alarm("--mail", ALARM_MAIL=YOU), 0)
    assert written(f"{folder}/mail").count("To:") == 1


def test_each_unit_that_fails_is_told():
    names = [name for name in sorted(os.listdir(f"{SERVER}/systemd"))
             if name.endswith(".service") and not name.startswith("index-alarm")]
    assert len(names) > 3
    assert [name for name in names if "\nOnFailure=index-alarm@%n.service\n" not in unit(name)] == []


def test_a_follower_that_failed_is_started_again_and_one_that_was_stopped_is_not():
    """As after a full disk: nginx goes on meanwhile to serve what was deleted or banned."""
    assert "\nWants=index-uncache-follow.timer\n" in unit("index-uncache-follow.service")
    timer = unit("index-uncache-follow.timer")
    assert "\nPartOf=index-uncache-follow.service\n" in timer and "\nOnUnitInactiveSec=10min\n" in timer


@pytest.mark.parametrize("name, minutes", [("index-alarm@.service", 5), ("index-health.service", 15)])
def test_what_tells_is_ended_if_it_hangs(name, minutes):
    """As by a sendmail or a disk that never answers: nothing is told until it ends, and systemd has no bound for a unit
    that runs once."""
    bound = re.search(r"^TimeoutStartSec=(\d+)min$", unit(name), re.M)
    assert bound and 0 < int(bound[1]) <= minutes, bound
