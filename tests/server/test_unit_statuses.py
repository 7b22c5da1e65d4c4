"""The statuses by which units and index-alarm act are those by which the programs end."""
import re

from support.places import SERVER
from support.planted import catches
from support.programs import program_of

LOG, HEALTH, ALARMS, METRICS = map(program_of, ("index-log", "index-health", "index-alarms", "index-metrics"))


def texts_in(path, pattern):
    with open(f"{SERVER}/{path}", encoding="utf-8") as kept:
        return re.findall(pattern, kept.read(), re.M)


def test_a_damaged_log_is_not_started_again_and_again():
    """By another status systemd would run index-log each 200 ms, and tell of it each time."""
    assert texts_in("systemd/index.service", r"^RestartPreventExitStatus=(.*)$") == [str(LOG.DAMAGED)]


def arms():
    """What index-health.service does after each status, by the shell's `case`."""
    script, = texts_in("systemd/index-health.service",
                       r'^ExecStopPost=\+/bin/sh -c \'case "\$\$EXIT_STATUS" in ((?:.*\\\n)*.*)esac\'$')
    return {int(it): does for statuses, does in re.findall(r"([\d|]+)\) (.*?) ;;", script)
            for it in statuses.split("|")}


@catches("server/bin/index-health", "LITTLE_ROOM, FRONT, BOTH = 0, 8, 3, 9, 10, 11",
         "LITTLE_ROOM, FRONT, BOTH = 0, 8, 3, 9, 10, 12",
         also=["test_the_metrics_know_by_which_statuses_the_index_answers"])
def test_a_check_of_health_is_followed_by_what_its_status_asks_for():
    full, room = "touch /run/index-full", "rm -f /run/index-full"
    assert arms() == {HEALTH.RESTART: "systemctl try-restart index.service", HEALTH.LITTLE_ROOM: full,
                      HEALTH.BOTH: full, HEALTH.WELL: room, HEALTH.FRONT: room}


def test_the_metrics_know_by_which_statuses_the_index_answers():
    assert {*METRICS.ANSWERED} == {HEALTH.WELL, HEALTH.LITTLE_ROOM, HEALTH.FRONT, HEALTH.BOTH}


@catches("server/bin/index-alarms", 'NAME, ALARM = "index-alarms", 9', 'NAME, ALARM = "index-alarms", 8')
def test_what_the_alarms_tell_is_always_sent():
    assert texts_in("bin/index-alarm", r'"index-alarms\.service (\d+)"') == [str(ALARMS.ALARM)]


@catches("server/bin/index-alarms", 'MARKS = "/var/lib/index-uncache/banned",', 'MARKS = "/var/lib/index-uncache/ban",')
def test_a_ban_is_marked_where_all_that_wait_for_one_look():
    """The follower's place has its folder; the path begins a punch, that begins again by it, and an alarm compares."""
    watched = texts_in("systemd/index-punch.path", "^PathChanged=(.*)$")
    places = texts_in("bin/index-uncache-follow", r'"--place", metavar="FILE", default="(.*)/place"')
    places += texts_in("systemd/index-uncache-follow@.service", "^ExecStart=.* --place (.*)/%i$")
    assert watched == [f"{it}/banned" for it in places] == [*ALARMS.MARKS]
    assert texts_in("systemd/index-punch.service", r"--mark (\S+)") == watched
    notes = texts_in("systemd/index-punch.service", r"--notes (\S+)")
    assert notes == texts_in("systemd/index-metrics.service", r"--punched (\S+)") == ["/var/lib/index-punch"]
    assert texts_in("bin/index-alarms", r'"--notes", metavar="FOLDER", default="([^"]*)"') == notes


def test_no_two_of_these_statuses_are_one():
    """And none that Python (1, 2), a shell (126 and more) or systemd (200 and more) has a meaning for."""
    of_health = [HEALTH.WELL, HEALTH.RESTART, HEALTH.ABSENT, HEALTH.LITTLE_ROOM, HEALTH.FRONT, HEALTH.BOTH]
    assert len({*of_health}) == len(of_health)
    assert all(2 < it < 126 for it in (*of_health[1:], LOG.DAMAGED, ALARMS.ALARM))
