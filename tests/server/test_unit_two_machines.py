"""index-take and index-leave on one of two machines, by stand-ins for DRBD, mount and systemctl; and their files."""
import os
import re
import signal
import subprocess
import time

import pytest
from support.needed import want_command
from support.places import TOP
from support.planted import catches
from support.running import run_command
from support.server.stand_ins import called, stand_ins, written
from support.server.two_machines import DUMPED, FILES, LEFT, SERVES, SHOWN, SIGNALS, Machine

TAKEN = ["drbdadm primary index", "mount -o noatime /dev/drbd0 /var/lib/index",
         "systemctl start index.service index-health.timer index-backup.timer"]
GIVEN_UP = ["systemctl stop index-health.timer index-backup.timer index-health.service index-backup.service",
            "systemctl stop index.service", "umount /var/lib/index", "drbdadm secondary index"]
# what each command does, and the state that it makes
COMMANDS = {"index-take": (TAKEN, SERVES), "index-leave": (GIVEN_UP, LEFT)}
# the states of a machine between these steps
BETWEEN = {"index-take": [LEFT, ("Primary", "", False), ("Primary", "/dev/drbd0", False), SERVES],
           "index-leave": [SERVES, SERVES, ("Primary", "/dev/drbd0", False), ("Primary", "", False), LEFT]}
STEPS = [(name, at) for name, (calls, _) in COMMANDS.items() for at in range(1, len(calls) + 1)]
# what only reads comes first
READS = {"index-take": 4, "index-leave": 3}
NO_NAME = "is not the name of a resource"


@pytest.fixture
def machine(folder):
    return Machine(folder)


def other(name):
    return {"index-take": "index-leave", "index-leave": "index-take"}[name]


@pytest.fixture(params=COMMANDS)
def name(request, machine):
    """A command, on a machine in the state in which it has something to do."""
    if request.param == "index-leave":
        assert machine.run("index-take").returncode == 0
    return request.param


@catches("server/lib/package_index/two_machines.py",
         '"index-backup.timer", "index-health.service", "index-backup.service",',
         '"index-backup.timer", "index-health.service",')
def test_a_machine_takes_the_index_and_gives_it_up_again_and_again(machine, looked):
    for name in [*COMMANDS] * 2:
        ended = machine.run(name)
        calls, state = COMMANDS[name]
        looked((ended.returncode, machine.called(), machine.state()) == (0, calls, state), ended, machine.called())


@catches("server/bin/index-take", "        if not there:", '        if there != "nothing":', case="index-take")
def test_the_second_time_a_command_changes_nothing(machine, name):
    for _ in range(2):
        ended = machine.run(name)
        assert (ended.returncode, machine.state()) == (0, COMMANDS[name][1]), ended
    assert [line for line in machine.called() if "mount" in line.split()[0]] == []


@catches("server/bin/index-leave", '        step("systemctl", "stop", *others, says',
         '        step("systemctl", "stop", *UNITS, says',
         ("server/bin/index-leave", '        step("systemctl", "stop", index, says',
          '        step("systemctl", "show", index, says'))
def test_a_backup_that_has_stopped_the_index_serves_on_no_machine_that_gives_it_up(machine):
    assert machine.run("index-take").returncode == 0
    machine.put(backs_up="")
    ended = machine.run("index-leave")
    assert (ended.returncode, machine.called(), machine.state()) == (0, GIVEN_UP, LEFT), ended


@catches("server/bin/index-take", '"/run/index-peer-is-off"', '"/run/index-peer-was-off"')
def test_what_says_that_the_other_machine_is_off_has_one_path():
    """In what believes it, what takes it away, and what a person types."""
    paths = []
    for name in ("server/two-machines/index-fence", "server/bin/index-take", "docs/operators/TWO-MACHINES.md"):
        with open(f"{TOP}/{name}", encoding="utf-8") as kept:
            paths += re.findall(r"(?:INDEX_FENCE_SAID:-|\"INDEX_FENCE_SAID\", \"|^touch )(/[\w/-]+)", kept.read(), re.M)
    assert paths == ["/run/index-peer-is-off"] * 3


@catches("server/bin/index-take", "            os.remove(SAID)", "            os.stat(SAID)", case="True")
@pytest.mark.parametrize("peer", [True, False])
def test_that_the_other_machine_is_off_is_believed_for_one_takeover_alone(machine, folder, peer):
    said = f"{folder}/said"
    machine.put(said="", **({"peer": ""} if peer else {}))
    os.rename(f"{machine.at}/said", said)
    ended = machine.run("index-take", INDEX_FENCE_SAID=said)
    assert (ended.returncode, os.path.exists(said)) == (int(peer), False), ended


@catches("server/lib/package_index/two_machines.py", r'        tell(f"{says}\n")', "        print(says, flush=True)",
         case="index-take")
def test_what_can_not_be_printed_stops_no_takeover(machine, name):
    """As into a file on a full disk, and through a pipe that nobody reads any more."""
    machine.front = ["sh", "-c", 'exec "$@" > /dev/full', "sh"]
    ended = machine.run(name)
    assert (ended.returncode, ended.stdout, machine.state()) == (0, "", COMMANDS[name][1]), ended


WRONG = [
    ("fencing         \tresource-and-stonith;", "", "lacks `fencing resource-and-stonith`"),
    ("resource-and-stonith", "resource-only", "lacks `fencing resource-and-stonith`"),
    ("resource-and-stonith", "dont-care", "lacks `fencing resource-and-stonith`"),
    ("    net {\n", "    net {\n        protocol        \tA;\n", "protocol other than C"),
    ("    net {\n", "    net {\n        protocol        \tB;\n", "protocol other than C"),
    ("    net {\n", "    net {\n        allow-two-primaries\tyes;\n", "allow-two-primaries"),
    ("    net {\n", "    net {\n        after-sb-0pri   \tdiscard-younger-primary;\n", "after-sb"),
    ("    net {\n", "    net {\n        after-sb-1pri   \tdiscard-secondary;\n", "after-sb"),
    ("    net {\n", "    net {\n        after-sb-2pri   \tcall-pri-lost-after-sb;\n", "after-sb"),
    ("c-min-rate", "disk-flushes    \tno;\n                c-min-rate", "disk-flushes"),
    ("c-min-rate", "md-flushes      \tno;\n                c-min-rate", "md-flushes"),
]


@pytest.mark.parametrize("old, new, said", WRONG)
def test_a_configuration_that_is_not_safe_as_it_runs_is_refused_and_named(machine, name, old, new, said):
    assert SHOWN.count(old) == 1
    machine.put(shown=SHOWN.replace(old, new))
    before, ended = machine.state(), machine.run(name)
    assert (ended.returncode, machine.called(), machine.state()) == (1, [], before), ended
    assert said in ended.stdout and "drbdadm adjust index" in ended.stdout, ended


@catches("server/lib/package_index/two_machines.py", r"\bfencing\s+resource-and-stonith;", r"\bfencing\s+\S+;",
         case="index-take")
@catches("server/lib/package_index/two_machines.py", r'if not re.search(r"\bfence-peer\s+\S"',
         'if not re.search(r"resource"', case="index-leave")
def test_each_part_that_is_wrong_is_named(machine, name):
    machine.put(shown=SHOWN.replace("resource-and-stonith", "dont-care").replace("net {", "net {\n protocol A;"),
                dumped=DUMPED.replace("fence-peer", "split-brain"))
    ended = machine.run(name)
    assert ended.returncode == 1 and machine.called() == []
    assert all(it in ended.stdout for it in ("resource-and-stonith", "protocol", "fence-peer")), ended


@pytest.mark.parametrize("words, status, said", [
    (["nosuch"], 1, "'nosuch' not defined"), (["../index"], 1, NO_NAME), (["index;reboot"], 1, NO_NAME),
    (["index "], 1, NO_NAME), ([""], 1, NO_NAME), (["/dev/drbd0"], 1, NO_NAME), (["index", "index"], 2, "RESOURCE"),
    (["--force"], 2, "RESOURCE"), (["-f"], 2, "RESOURCE")])
def test_a_wrong_name_changes_nothing(machine, name, words, status, said):
    before, ended = machine.state(), machine.run(name, *words)
    assert (ended.returncode, machine.called(), machine.state()) == (status, [], before), ended
    assert said in ended.stdout, ended


@pytest.mark.parametrize("shown", ["", "resource other {\n    fencing resource-and-stonith;\n}\n"])
def test_a_disk_that_is_not_up_is_named_with_the_command_for_it(machine, name, shown):
    machine.put(shown=shown)
    before, ended = machine.state(), machine.run(name)
    assert (ended.returncode, machine.called(), machine.state()) == (1, [], before)
    assert "drbdadm up index" in ended.stdout


def test_a_warning_before_the_configuration_changes_nothing(machine, name):
    machine.put(shown=f"DRBD module version: 8.4.11\n   userland version: 9.22.0\n{SHOWN}")
    ended = machine.run(name)
    assert (ended.returncode, machine.state()) == (0, COMMANDS[name][1]), ended


@catches("server/lib/package_index/two_machines.py", r're.findall(r"^/dev/\S+$", printed, re.MULTILINE)',
         "[printed.strip()]", case="index-take", also=["test_a_warning_beside_the_device_changes_nothing[index-leave]"])
def test_a_warning_beside_the_device_changes_nothing(machine, name):
    machine.put(devices="DRBD module version: 8.4.11\n   userland version: 9.22.0\n/dev/drbd0\nplease don't mix.\n")
    ended = machine.run(name)
    assert (ended.returncode, machine.called(), machine.state()) == (0, *COMMANDS[name]), ended


@catches("server/lib/package_index/two_machines.py", "    if len(devices) != 1:", "    if len(devices) > 9:")
@pytest.mark.parametrize("devices", ["", "no device\n", "/dev/drbd0\n/dev/drbd1\n"])
def test_a_disk_of_no_device_or_of_several_is_left_alone(machine, name, devices):
    machine.put(devices=devices)
    before, ended = machine.state(), machine.run(name)
    assert (ended.returncode, machine.called(), machine.state()) == (1, [], before), ended
    assert "drbdadm sh-dev index prints" in ended.stdout, ended


@pytest.mark.parametrize("word", ["-h", "--help"])
def test_help_is_printed(machine, name, word):
    ended = machine.run(name, word)
    assert ended.returncode == 0 and ended.stdout.startswith(f"{name} [RESOURCE]: ") and machine.called() == []


@catches("server/bin/index-take", 'if there not in ("", disk.device):', 'if there == "nothing":', case="index-take")
def test_another_disk_at_the_folder_is_refused_and_stays(machine, name):
    machine.put(mounts="/dev/sda1 /var/lib/index ext4 rw 0 0\n")
    before, ended = machine.state(), machine.run(name)
    assert (ended.returncode, machine.called(), machine.state()) == (1, [], before)
    assert "/dev/sda1 is mounted at /var/lib/index" in ended.stdout


def test_a_disk_that_is_mounted_elsewhere_is_no_index(machine):
    """Only the folder itself counts, and of two mounts there the upper one."""
    machine.put(mounts="/dev/sda1 /var/lib/index ext4 rw 0 0\n/dev/drbd0 /var/lib/index ext4 rw 0 0\n"
                "/dev/sda2 /var/lib/index/8081 ext4 rw 0 0\n", role="Primary\n")
    ended = machine.run("index-take")
    assert ended.returncode == 0 and machine.called() == [TAKEN[0], TAKEN[2]], ended


def test_while_the_other_machine_may_be_primary_nothing_is_mounted(machine):
    machine.put(peer="")
    ended = machine.run("index-take")
    assert (ended.returncode, machine.called(), machine.state()) == (1, TAKEN[:1], LEFT)
    assert "Refusing to be Primary while peer is not outdated" in ended.stdout


@catches("server/bin/index-leave", 'if there not in ("", disk.device):',
         'if step("systemctl", "stop", *UNITS[:-1], says="its timers are stopped") or there not in ("", '
         "disk.device):",
         ("server/bin/index-leave",
          'step("systemctl", "stop", *others, says="its timers, and what they start, are stopped")', "pass"),
         case="index-leave-1-TERM")
@pytest.mark.parametrize("number", SIGNALS)
@pytest.mark.parametrize("name, at", STEPS, indirect=["name"])
def test_a_signal_at_each_step_ends_it_behind_that_step_and_it_goes_on_or_back(machine, name, at, number):
    machine.put(stops=f"{READS[name] + at}", signal=number)
    ended = machine.run(name)
    assert ended.returncode == -getattr(signal, f"SIG{number}"), ended
    assert machine.state() == BETWEEN[name][at] and machine.called() == COMMANDS[name][0][:at]
    assert f"{name}: stopped" in ended.stdout
    # (behind the first step of index-take the index is served by nobody yet)
    assert f"run {name} again, or {other(name)}" in ended.stdout or (name, at) == ("index-take", 1), ended
    machine.remove("stops")
    for again in (name, other(name), name):
        ended = machine.run(again)
        assert (ended.returncode, machine.state()) == (0, COMMANDS[again][1]), ended


@pytest.mark.parametrize("name, at", STEPS, indirect=["name"])
def test_a_step_that_fails_ends_it_there_and_it_goes_on_or_back(machine, name, at):
    machine.put(fails=f"{READS[name] + at}")
    ended = machine.run(name)
    assert ended.returncode == 1 and "no luck" in ended.stdout, ended
    assert machine.state() == BETWEEN[name][at - 1] and machine.called() == COMMANDS[name][0][:at]
    machine.remove("fails")
    for again in (other(name), name):
        ended = machine.run(again)
        assert (ended.returncode, machine.state()) == (0, COMMANDS[again][1]), ended


@pytest.mark.parametrize("name, at", [(name, at) for name, reads in READS.items() for at in range(1, reads + 1)])
def test_a_disk_that_can_not_be_asked_is_left_alone(machine, name, at):
    machine.put(fails=f"{at}")
    before, ended = machine.state(), machine.run(name)
    assert (ended.returncode, machine.called(), machine.state()) == (1, [], before)


@catches("server/bin/index-take", "(Inconsistent|Diskless|Failed)", "(Outdated|Diskless|Failed)",
         case="Inconsistent/UpToDate")
@pytest.mark.parametrize("disks", ["Inconsistent/UpToDate", "Diskless/UpToDate", "Failed/UpToDate"])
def test_a_copy_that_is_not_whole_is_refused_though_drbd_would_take_it(machine, disks):
    machine.put(disks=f"Command 'drbdsetup dstate' did not terminate within 5 seconds\n{disks}\n")
    ended = machine.run("index-take")
    assert (ended.returncode, machine.called(), machine.state()) == (1, [], LEFT), ended
    assert disks.partition("/")[0] in ended.stdout and "drbdadm dstate index prints" in ended.stdout


@catches("server/bin/index-take", 'if found and not re.search(r"^Primary/"', 'if found and not re.search(r"^Unknown/"')
def test_a_machine_that_serves_by_the_other_ones_disk_may_be_told_again_to_serve(machine):
    assert machine.run("index-take").returncode == 0
    machine.put(disks="Inconsistent/UpToDate\n")
    assert (machine.run("index-take").returncode, machine.state()) == (0, SERVES)


@pytest.mark.parametrize("disks", ["UpToDate/Inconsistent", "Consistent/DUnknown"])
def test_another_copy_is_left_to_drbd(machine, disks):
    machine.put(disks=f"{disks}\n")
    assert (machine.run("index-take").returncode, machine.state()) == (0, SERVES)


# the role and the disk, the status of the power switch, whether a person said that the other machine is off: the
# status, whether the power was cut, and the seconds that were waited for the machine that serves
FENCED = [
    ("Primary/Unknown", "UpToDate/DUnknown", 0, False, 7, True, []),
    ("Secondary/Unknown", "UpToDate/DUnknown", 0, False, 7, True, ["sleep 8"]),
    ("Primary/Unknown", "UpToDate/DUnknown", 1, False, 1, True, []),
    ("Secondary/Unknown", "UpToDate/DUnknown", 1, False, 1, True, ["sleep 8"]),
    ("Secondary/Unknown", "Consistent/DUnknown", 0, False, 1, False, []),
    ("Secondary/Unknown", "Outdated/DUnknown", 0, False, 1, False, []),
    ("Secondary/Unknown", "Inconsistent/UpToDate", 0, False, 1, False, []),
    ("Secondary/Unknown", "Consistent/DUnknown", 1, True, 7, False, []),
    ("Secondary/Unknown", "UpToDate/DUnknown", 1, True, 7, False, []),
]


def fence(folder, role, disk, status, **setting):
    asked = f"case $1 in role) echo {role} ;; dstate) echo {disk} ;; *) exit 1 ;; esac"
    at = f"{folder}/commands"
    stand_ins(at, drbdadm=asked, sleep="", logger="", **{"index-power-off": f"exit {status}"})
    with open(f"{FILES}/index-fence") as kept:
        script, count = re.subn(r"(?m)^PATH=", f"PATH={at}:", kept.read())
    assert count == 1
    with open(f"{folder}/index-fence", "w") as made:
        made.write(script)
    words = {"DRBD_RESOURCE": "index", "DRBD_PEERS": "two", "INDEX_FENCE_FOLDER": at,
             "INDEX_FENCE_SAID": f"{folder}/said", **setting}
    kept = {name: value for name, value in os.environ.items() if name.lower().startswith("path")}
    ended = subprocess.run(["sh", f"{folder}/index-fence"], env={**kept, **words}, stdout=subprocess.PIPE,
                           stderr=subprocess.STDOUT, timeout=60)
    return ended.returncode, called(at).splitlines()


@pytest.mark.parametrize("role, disk, works, is_said, status, is_cut, waited", FENCED)
def test_the_other_machine_is_off_before_this_one_goes_on(folder, role, disk, works, is_said, status, is_cut, waited):
    if is_said:
        with open(f"{folder}/said", "w"):
            pass
    found, calls = fence(folder, role, disk, works)
    assert found == status, calls
    assert [line for line in calls if line.startswith("index-power-off")] == ["index-power-off two"] * is_cut
    assert [line for line in calls if line.startswith("sleep")] == waited
    if waited:
        assert calls.index(waited[0]) < calls.index("index-power-off two")
    # what a person said counts once
    assert not os.path.exists(f"{folder}/said")


@pytest.mark.parametrize("minutes, status", [(9, 7), (11, 1), (60 * 24 * 14, 1), (-5, 1)])
def test_what_a_person_said_of_an_earlier_takeover_is_not_believed_when_the_cable_is_out(folder, minutes, status):
    """An index-take that was killed leaves the file, which is of a later time than now once the clock is set back."""
    with open(f"{folder}/said", "w") as made:
        os.utime(made.name, (time.time() - 60 * minutes,) * 2)
    found, calls = fence(folder, "Primary/Unknown", "UpToDate/DUnknown", 1)
    assert (found, "index-power-off two" in calls) == (status, status == 1), calls


@pytest.mark.parametrize("lacks", ["DRBD_RESOURCE", "DRBD_PEERS"])
def test_without_the_names_that_drbd_gives_nothing_is_cut(folder, lacks):
    status, calls = fence(folder, "Primary/Unknown", "UpToDate/DUnknown", 0, **{lacks: ""})
    assert status == 1 and not any(line.startswith("index-power-off") for line in calls)


def test_the_command_for_the_power_switch_fails_until_it_is_written():
    ended = run_command(["sh", f"{FILES}/index-power-off", "two"])
    assert ended.returncode == 1 and "no power switch is set up for two" in ended.stdout


def test_drbd_reads_the_resource_and_finds_in_it_what_keeps_uploads_and_names(folder):
    """By drbdadm for DRBD 8.4, the version in Debian's kernel, on a machine that it takes for one of the two."""
    want_command("drbdadm", "drbd-utils")
    with open(f"{folder}/conf", "w") as made, open(f"{FILES}/index.res") as kept:
        made.write(f'global {{ usage-count no; }}\n{kept.read()}')
    ended = run_command(["drbdadm", "-c", f"{folder}/conf", "dump", "index"], DRBD_DRIVER_VERSION_OVERRIDE="8.4.11",
                        __DRBD_NODE__="one")
    said = " ".join(ended.stdout.split())
    assert ended.returncode == 0, ended
    for each in ("fencing resource-and-stonith;", "protocol C;", "fence-peer /etc/drbd.d/index-fence;",
                 "after-sb-0pri disconnect;", "after-sb-1pri disconnect;", "after-sb-2pri disconnect;"):
        assert each in said, (each, said)


@pytest.mark.parametrize("at, status", [("/proc", 0), ("/etc", 1)])
def test_systemd_starts_no_index_on_a_folder_where_nothing_is_mounted(at, status):
    want_command("systemd-analyze", "systemd")
    line, = [it for it in written(f"{FILES}/on-drbd.conf").splitlines() if "=" in it and not it.startswith("#")]
    assert line == "AssertPathIsMountPoint=/var/lib/index"
    ended = run_command(["systemd-analyze", "condition", line.replace("/var/lib/index", at)])
    assert ended.returncode == status, ended
