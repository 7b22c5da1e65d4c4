"""index-alarms: each of its alarms is raised by the program, once a day, and by a drill."""
import json
import os
import sys
import time

import pytest
from support.library import followed
from support.places import BIN, SERVER
from support.planted import catches
from support.running import run_command
from support.server.expected import assert_ends
from support.server.stand_ins import called, stand_ins
from support.server.watched import unit

HOUR, DAY = 3600, 86400
SYSTEMCTL = """case "$*" in
list-units*) echo "index.service loaded active running x"; echo "index@8081.service loaded active running x" ;;
*NRestarts*8081*) echo 9 ;;
*NRestarts*) echo 2 ;;
*Environment*) echo "A=b $MAIL" ;;
*TimestampMonotonic*) echo "$STARTED" ;;
*property=Id*) printf "$STATES" ;;
start*) exec sh -c "$STARTS" ;;
esac"""


class Watched:
    """Runs of index-alarms in a folder of its own, which has a backup and no nginx."""

    def __init__(self, folder):
        self.folder, self.state = folder, f"{folder}/state.json"
        self.path = stand_ins(f"{folder}/bin", systemctl=SYSTEMCTL)
        os.mkdir(f"{folder}/backups")
        self.backup = f"{folder}/backups/index-{time.strftime('%Y%m%dT%H%M%SZ', time.gmtime())}.db"
        with open(self.backup, "w"):
            pass

    def run(self, *words, **setting):
        places = {"state": self.state, "folder": self.folder, "backups": f"{self.folder}/backups",
                  "changes": f"{self.folder}/changes.log", "db": f"{self.folder}/index.db",
                  "nginx": f"{self.folder}/conf.d/packages.conf", "place": f"{self.folder}/place",
                  "failed": f"{self.folder}/failed", "notes": f"{self.folder}/notes", "banned": f"{self.folder}/banned"}
        named = [word for name, path in places.items() for word in (f"--{name}", path)]
        return run_command([sys.executable, f"{BIN}/index-alarms", *named, *words],
                           PATH=self.path, **{"STATES": "", "STARTED": "", **setting})

    def put(self, name, text, seconds_ago=0.0):
        """A file in the folder that was written so long ago."""
        path = f"{self.folder}/{name}"
        os.makedirs(os.path.dirname(path), exist_ok=True)
        with open(path, "w") as made:
            made.write(text)
        os.utime(path, (time.time() - seconds_ago,) * 2)
        return path

    def kept(self):
        with open(self.state) as kept:
            return json.load(kept)

    def change(self, change):
        """Changes what the earlier looks have kept."""
        state = self.kept()
        change(state)
        with open(self.state, "w") as made:
            json.dump(state, made)


@pytest.fixture
def watched(folder):
    made = Watched(folder)
    assert_ends(made.run(), 0)
    assert made.run().stdout == ""
    return made


@catches("server/bin/index-alarms", "return ALARM if new or again or over(state, kept) else 0",
         "return ALARM if kept.raised else 0")
@catches("server/bin/index-alarms", "at if 0 <= now.at - at < DAY else now.at", "at")
@pytest.mark.told("a disk is full within 7 days")
def test_a_disk_that_fills_is_told_once_a_day(watched):
    def fills(state):
        # also if other tests fill or free a third of the disk meanwhile
        at, boot, up, room, restarts = state["day"][0]
        state["day"][0] = [at - 10 * HOUR, boot, up - 10 * HOUR, {watched.folder: room[watched.folder] * 6}, restarts]

    watched.change(fills)
    assert_ends(watched.run(), 9, f"the disk of {watched.folder} is full in 0.1 days, at the rate of the last 10 hours")
    assert_ends(watched.run(), 0, f"the disk of {watched.folder} is full in 0.1 days")
    watched.change(lambda state: state["raised"]["disk"].__setitem__(0, time.time() - DAY - 1))
    assert_ends(watched.run(), 9, f"the disk of {watched.folder} is full")


@pytest.mark.told("the clock was set by more than a minute")
def test_a_clock_that_was_set_is_told(watched):
    def sets(state):
        state["day"][-1][0] += 2 * HOUR

    watched.change(sets)
    assert_ends(watched.run(), 9, "the clock went back by 7")
    # no look of a later time than now is kept
    assert_ends(watched.run(), 0)


@catches("server/bin/index-alarms", "looks.punches(words.db, words.notes, words.banned or MARKS,",
         "looks.punches(words.db, words.notes, (),")
@pytest.mark.told("deleted or banned bytes stay in a volume")
def test_what_was_banned_and_is_still_on_the_disk_is_told(watched):
    watched.put("index.db-volume", "bytes")
    watched.put("notes/last", json.dumps({"began": time.time() - 2 * HOUR, "above": 0, "kept": 0}))
    assert_ends(watched.run(), 0)
    watched.put("banned", "", 1.5 * HOUR)
    assert_ends(watched.run(), 9, f"what was banned 90 minutes ago is still in {watched.folder}/index.db-volume")
    watched.put("notes/last", json.dumps({"began": time.time(), "above": 0, "kept": 4096}))
    assert_ends(watched.run(), 0, "4096 bytes of deleted files stay in", "has no holes")


@pytest.mark.told("the index started again more than three times in ten minutes")
def test_an_index_that_is_started_again_and_again_is_told(watched):
    def restarts(state):
        assert state["day"][-1][4] == {"index.service": 2, "index@8081.service": 9}
        # also of two looks within a minute
        for it in state["day"]:
            it[4] = {"index.service": 2, "index@8081.service": 1}

    watched.change(restarts)
    assert_ends(watched.run(), 9, "index@8081.service was started again 8 times", "another program had its port")


@pytest.mark.told("no backup for 26 hours")
def test_a_late_backup_is_told(watched):
    os.utime(watched.backup, (time.time() - 27 * HOUR,) * 2)
    assert_ends(watched.run(), 9, f"no backup was made in {watched.folder}/backups for 27 hours")


@pytest.mark.told("100 changes in an hour were refused or had a wrong token")
def test_a_rise_of_wrong_tokens_is_told(watched):
    line = json.dumps({"at": time.strftime("%Y-%m-%dT%H:%M:%S+00:00", time.gmtime()), "status": 401})
    with open(f"{watched.folder}/changes.log", "w") as log:
        log.write(f"{line}\n" * 120)
    assert_ends(watched.run(), 9, "120 changes were answered by 401")


def at(seconds_ago):
    return time.strftime("%Y-%m-%dT%H:%M:%S+00:00", time.gmtime(time.time() - seconds_ago))


@catches("server/bin/index-alarms", "return ALARM if new or again or over(state, kept) else 0",
         "return ALARM if new else 0")
def test_a_failed_change_is_told_once_and_that_it_is_over(watched):
    """Each look reads on from where the last one was."""
    log = f"{watched.folder}/changes.log"
    with open(log, "w") as made:
        made.write(json.dumps({"at": at(0), "status": 500}) + "\n")
    assert_ends(watched.run(), 9, "1 change failed (500) in the last hour: is the disk of the database full, ")
    with open(log, "a") as made:
        made.write(json.dumps({"at": at(0), "status": 500}) + "\n")
    assert_ends(watched.run(), 0, "2 changes failed (500) in the last hour")

    def passes(state):
        state["tally"][1] = {}
        state["raised"]["failed"][1] -= 601

    watched.change(passes)
    assert_ends(watched.run(), 9, "over: 2 changes failed (500) in the last hour")
    assert watched.run().stdout == ""


STATES = "Id={}\\nUnitFileState=enabled\\nActiveState={}\\nResult=success\\n\\n"


@catches("server/lib/package_index/watched.py", 'it.get("ActiveState") == "inactive"',
         'it.get("ActiveState") == "dead"')
@pytest.mark.told("`index-uncache-follow` or a timer of the index")
def test_what_watches_and_was_stopped_is_told(watched):
    states = STATES.format("index-health.timer", "inactive") + STATES.format("index-backup.timer", "active")
    ended = watched.run(STATES=states)
    assert_ends(ended, 9, "index-health.timer is enabled and does not run: systemctl start index-health.timer")
    assert "index-backup" not in ended.stdout
    assert "UnitFileState,ActiveState index-health.timer" in called(f"{watched.folder}/bin")


@catches("server/lib/package_index/watched.py", 'said.append(f"over: {unit} is well again")', "pass")
def test_a_unit_that_failed_and_is_well_again_is_told_once(watched):
    stamp = watched.put("failed/index-health.service-9-77", "")
    states = STATES.format("index-health.service", "inactive")
    assert watched.run(STATES=states).stdout == ""
    watched.change(lambda state: state["well"].update({"index-health.service": time.time() - 301}))
    assert_ends(watched.run(STATES=states), 9, "index-alarms: over: index-health.service is well again")
    assert not os.path.exists(stamp) and watched.run(STATES=states).stdout == ""


def test_a_log_that_nginx_does_not_write_is_told(watched):
    """Where nginx has no file of the index its log is on another machine."""
    since = str(int((time.monotonic() - 1000) * 1e6))
    watched.put("changes.log", "{}\n", 700)
    watched.put("index.db", "", 690)
    assert watched.run(STARTED=since).stdout == ""
    watched.put("index.db-wal", "", 5)
    assert watched.run(STARTED=since).stdout == ""
    watched.put("conf.d/packages.conf", "")
    assert_ends(watched.run(STARTED=since), 9, f"{watched.folder}/index.db was changed 12 minutes after the last line",
                "nginx does not write it, or changes go past nginx")
    text = unit("index-alarms.service")
    assert "\nCapabilityBoundingSet=CAP_DAC_READ_SEARCH\n" in text and "\nSupplementaryGroups=adm\n" in text
    assert "\nReadWritePaths=-/run/index-alarm\n" in text


@catches("server/bin/index-alarms", '("behind", looks.behind', '("behind", () and looks.behind')
def test_a_follower_that_stays_behind_is_told(watched):
    old, new = (json.dumps({"at": at(it), "status": 200}) + "\n" for it in (600, 180))
    log = watched.put("changes.log", old)
    with open(log, "rb") as opened:
        opened.seek(len(old))
        followed.keep_place(f"{watched.folder}/place", followed.place_of(opened))
    assert watched.run().stdout == ""
    with open(log, "a") as made:
        made.write(new)
    assert_ends(watched.run(), 9, f"index-uncache-follow is 3 minutes behind {log}: nginx serves what was deleted or "
                "banned since. systemctl restart index-uncache-follow")


@catches("server/bin/index-alarms", "except (ValueError, KeyError, TypeError) as end:", "except KeyError as end:")
def test_a_state_that_can_not_be_read_is_told_and_begun_again(watched):
    with open(watched.state, "w") as made:
        made.write('{"begun": 1')
    assert_ends(watched.run(), 0, f"{watched.state} can't be read, and is begun again")
    assert watched.run().stdout == "" and len(watched.kept()["day"]) == 2


@catches("server/bin/index-alarms", 'return kept.read().strip().replace("-", "")', "return kept.read().strip()")
def test_a_start_of_the_machine_is_as_systemd_names_it(watched):
    """So that --boot of the unit and the program's own are the same."""
    with open("/proc/sys/kernel/random/boot_id") as kept:
        boot = kept.read().strip().replace("-", "")
    assert watched.run("--boot", "0" * 32).returncode == 0
    assert [it[1] for it in watched.kept()["day"]] == [boot, "0" * 32]


@catches("server/bin/index-alarms", "kept = [it for it in state.day if 0 <= now.at - it.at <= DAY]",
         "kept = [*state.day]")
def test_looks_of_more_than_a_day_ago_are_forgotten(watched):
    def ages(state):
        state["day"][0][0] -= DAY + 60

    assert len(watched.kept()["day"]) == 2
    watched.change(ages)
    assert watched.run().returncode == 0 and len(watched.kept()["day"]) == 2


@catches("server/bin/index-alarms", "    for kind in KINDS + OTHERS:", "    for kind in KINDS[:1]:")
def test_a_drill_raises_each_alarm_once_and_says_who_was_told(watched):
    ended = watched.run("--drill", MAIL="ALARM_MAIL=you@example.org", STARTS=":")
    kinds = ["disk", "clock", "restarts", "backup", "punch", "failed", "refused", "unlogged", "behind", "off", "health",
             "certificate"]
    assert_ends(ended, 0, *(f"{kind}: told to the journal; mail to you@example.org\n" for kind in kinds))
    started = [it for it in called(f"{watched.folder}/bin").splitlines() if "start index-alarm@drill-" in it]
    assert [it.split("-")[2] for it in started] == kinds


@catches("server/bin/index-alarms", "            status = 1", "            status = 0")
def test_a_drill_says_that_nobody_has_a_mail_and_fails_if_an_alarm_did_not_go_out(watched):
    ended = watched.run("--drill", STARTS=":")
    assert_ends(ended, 0, "disk: told to the journal; no mail, since ALARM_MAIL is not set")
    ended = watched.run("--drill", STARTS="echo sendmail hangs; exit 1")
    assert_ends(ended, 1, "disk: NOT told", "sendmail hangs", "refused: NOT told")


def test_the_unit_calls_it_and_tells():
    text = unit("index-alarms.service")
    assert "\nExecStart=/usr/local/bin/index-alarms --boot %b\nStateDirectory=index-alarms\n" in text
    assert "\nOnUnitActiveSec=1min\n" in unit("index-alarms.timer")
    with open(f"{SERVER}/debian/package-index.prerm") as kept:
        assert " index-alarms.timer " in kept.read()
