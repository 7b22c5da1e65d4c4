"""index-cluster, by stand-ins for DRBD and Pacemaker, and by crmsh itself; and what DRBD calls on such machines."""
import os
import re
import runpy
import signal
import subprocess
import time
import xml.etree.ElementTree as ElementTree

import pytest
from support.needed import want_command
from support.places import BIN, SERVER
from support.planted import catches
from support.running import run_command
from support.server.cluster import DUMPED, FILE, STATE, Cluster, cib, switch
from support.server.stand_ins import called, stand_ins
from support.server.two_machines import FILES, SHOWN
from support.two_machines.page import BLOCK

LOADED = ["crm configure load update {file}"]
REACHED = ["crm_mon -1 --output-as=xml"] * 2


def test_the_copy_for_the_passwords_of_the_switches_is_root_s_alone(folder, looked):
    with open(f"{SERVER}/two-machines/README.md", encoding="utf-8") as kept:
        block, = [it for it in BLOCK.findall(kept.read()) if "cp --no-clobber" in it]
    path = stand_ins(f"{folder}/bin", **{"index-cluster": "exit 0"})
    block = block.replace("/usr/share/package-index", SERVER).replace("/etc/drbd.d", folder)
    subprocess.run(["sh", "-c", f"umask 022\n{block}"], check=True, env={**os.environ, "PATH": path})
    looked(os.stat(f"{folder}/index.crm").st_mode & 0o777 == 0o600, block)


@pytest.fixture
def cluster(folder):
    return Cluster(folder)


def loaded(cluster):
    return [it.format(file=cluster.file) for it in LOADED]


def refused(cluster, *words):
    """That it refused and changed nothing, and what it said."""
    ended = cluster.run(*words)
    assert (ended.returncode, cluster.called(), cluster.live()) == (1, [], cluster.before), ended
    return ended.stdout


def test_a_configuration_with_a_switch_for_each_machine_is_loaded_again_and_again(cluster, looked):
    for _ in range(2):
        ended = cluster.run()
        looked((ended.returncode, cluster.called()) == (0, loaded(cluster) + REACHED), ended)
        looked(cluster.live() == cluster.made, cluster.live())


@catches("server/bin/index-cluster", 'and it.get("type") not in NO_SWITCH:', 'and it.get("type") != "none":')
@pytest.mark.parametrize("switches, lacks", [
    ("", "one, two"), (switch("one"), "two"), (switch("two"), "one"), (switch("one two", type="null"), "one, two"),
    (switch("one two", type="external/null"), "one, two"), (switch("one two", type="fence_dummy"), "one, two"),
    (switch("one two", type="meatware"), "one, two"), (switch("onetwo"), "one, two"),
    (switch("one", name="plug"), "one, two")])
@pytest.mark.told("`index-take`")
def test_a_machine_without_a_power_switch_is_named_and_nothing_is_loaded(cluster, switches, lacks):
    cluster.put(made=cib(switches))
    assert f"no power switch is named for {lacks}, by pcmk_host_list" in refused(cluster)


@pytest.mark.parametrize("switches", [
    switch("one") + switch("two"), switch("one,two"), switch("two one"),
    switch("one:1;two:2,3", name="pcmk_host_map"), switch("one=a two=b", name="pcmk_host_map")])
def test_a_switch_may_be_of_one_machine_or_of_both(cluster, switches):
    cluster.put(made=cib(switches))
    assert cluster.run().returncode == 0


@catches("server/bin/index-cluster", '    ("stonith-enabled", NO, "takes', '    ("stonith-enabled", (), "takes')
@pytest.mark.parametrize("name, value, said", [
    *(("stonith-enabled", value, "is only silent") for value in ("false", "no", "off", "0", "False", "n")),
    ("startup-fencing", "false", "has not seen"), ("no-quorum-policy", "ignore", "starts alone")])
def test_a_property_that_lets_both_serve_is_refused_and_named(cluster, name, value, said):
    cluster.put(made=cib(switch("one two"), **{name: value}))
    found = refused(cluster)
    assert f"`{name}={value}`" in found and said in found


@catches("server/bin/index-cluster", "    found = wrong_of_drbd(dumped) + wrong_of(", "    found = wrong_of(")
@pytest.mark.parametrize("old, new, said", [
    ("/etc/drbd.d/index-fence-crm", "/etc/drbd.d/index-fence", "lacks `fence-peer /etc/drbd.d/index-fence-crm`"),
    ("/etc/drbd.d/index-fence-crm", "/usr/lib/drbd/crm-fence-peer.sh", "lacks `fence-peer"),
    ("after-resync-target", "before-resync-target", "lacks `after-resync-target /usr/lib/drbd/crm-unfence-peer.sh`")])
def test_drbd_that_does_not_ask_pacemaker_is_refused(cluster, old, new, said):
    assert DUMPED.count(old) == 1
    cluster.put(dumped=DUMPED.replace(old, new))
    assert said in refused(cluster)


@pytest.mark.parametrize("fencing", ["resource-only", "dont-care"])
def test_drbd_that_goes_on_without_asking_is_refused(cluster, fencing):
    cluster.put(shown=SHOWN.replace("resource-and-stonith", fencing))
    assert "lacks `fencing resource-and-stonith`" in refused(cluster)


@pytest.mark.parametrize("nodes", [["one"], ["one", "three"], ["one", "two", "three"], []])
def test_other_machines_than_those_of_drbd_are_refused(cluster, nodes):
    cluster.put(made=cib(switch("one two three"), nodes))
    assert f"Pacemaker knows {', '.join(sorted(nodes)) or 'no machine'}, and DRBD one, two" in refused(cluster)


@catches("server/bin/index-cluster", "    if found:", "    if found and len(found) > 9:")
def test_a_file_of_another_disk_is_refused(cluster):
    cluster.put(made=cib(switch("one two")).replace('value="index"', 'value="other"'))
    assert "nothing in it has the disk index" in refused(cluster)


def test_a_place_that_was_not_filled_is_refused_and_one_in_a_comment_is_not(cluster):
    for text, status in (("# password=CHANGE-ME\n", 0), ("primitive a stonith:b params password=CHANGE-ME\n", 1)):
        cluster.put(**{FILE: text})
        ended = cluster.run()
        assert (ended.returncode, "CHANGE-ME" in ended.stdout) == (status, bool(status)), ended


@catches("server/bin/index-cluster", "    if lacking:", "    if lacking and not machines:")
def test_each_part_that_is_wrong_is_named(cluster):
    cluster.put(made=cib("", ["one"], **{"stonith-enabled": "false"}), dumped=DUMPED.replace("index-fence-crm", "x"))
    said = refused(cluster)
    assert all(it in said for it in ("fence-peer", "stonith-enabled", "Pacemaker knows", "no power switch")), said


@pytest.mark.parametrize("words, status, said", [
    (["{folder}/none"], 1, "No such file or directory"), (["{folder}"], 1, "Is a directory"),
    (["{file}", "nosuch"], 1, "'nosuch' not defined"), (["{file}", "../index"], 1, "is not the name of a resource"),
    (["{file}", "index", "index"], 2, "index-cluster FILE"),
    (["--force", "{file}"], 2, "index-cluster FILE")])
def test_a_wrong_name_changes_nothing(cluster, words, status, said):
    ended = cluster.run(*(it.format(file=cluster.file, folder=os.path.dirname(cluster.file)) for it in words))
    assert (ended.returncode, cluster.called(), cluster.live()) == (status, [], cluster.before), ended
    assert said in ended.stdout and "Traceback" not in ended.stdout


@pytest.mark.parametrize("at", range(1, 7))
def test_what_can_not_be_asked_ends_it_before_anything_is_changed(cluster, at):
    cluster.put(fails=f"{at}")
    assert "no luck" in refused(cluster)


@pytest.mark.parametrize("number", ["HUP", "INT", "TERM"])
@pytest.mark.parametrize("at", range(1, 8))
def test_a_signal_leaves_the_old_configuration_or_the_new_one_and_no_file(cluster, at, number):
    cluster.put(stops=f"{at}", signal=number)
    ended = cluster.run()
    assert ended.returncode == -getattr(signal, f"SIG{number}"), ended
    assert cluster.live() == (cluster.made if at == 7 else cluster.before)
    assert os.listdir(cluster.temporary) == []
    cluster.remove("stops")
    assert (cluster.run().returncode, cluster.live()) == (0, cluster.made)


def test_a_configuration_that_pacemaker_does_not_take_is_shown(cluster):
    cluster.put(fails="7")
    ended = cluster.run()
    assert (ended.returncode, cluster.live()) == (1, cluster.before) and "no luck" in ended.stdout, ended


@catches("server/bin/index-cluster", "        if time.monotonic() > until:", "        if time.monotonic() > 0:",
         ("server/bin/index-cluster", '            raise Refused(f"{switch} does',
          '            return print(f"{switch} does'))
@pytest.mark.parametrize("two", [
    "", STATE.format("two", "Stopped", "false"), STATE.format("two", "Starting", "false"),
    STATE.format("two", "Started", "true"), STATE.format("two-b", "Started", "false")],
    ids=["unknown", "stopped", "asked", "failed", "another"])
def test_a_switch_that_does_not_answer_pacemaker_is_named(cluster, two):
    cluster.put(switches=two + STATE.format("one", "Started", "false"))
    ended = cluster.run()
    assert ended.returncode == 1 and "power-two does not answer Pacemaker" in ended.stdout, ended
    assert "power-one answers Pacemaker" in ended.stdout and "crm_mon -1f" in ended.stdout


def operation(name, call, code, status, id=""):
    """What Pacemaker has of something that it did with a switch."""
    key = "11111111-1111-1111-1111-111111111111"
    return (f'<lrm_rsc_op id="power-one_{id or name}_0" operation_key="power-one_{name}_0" operation="{name}" '
            f'interval="0" call-id="{call}" rc-code="{code}" op-status="{status}" transition-key="1:0:0:{key}" '
            f'transition-magic="{status}:{code};1:0:0:{key}" last-rc-change="1700000000"/>')


PROBED, STARTED = operation("monitor", 1, 7, 0), operation("start", 2, 0, 0)


@catches("server/bin/index-cluster", """'role="Started"' in row and""", """'active="true"' in row and""", case="asked",
         also=["test_a_switch_that_does_not_answer_pacemaker_is_named[asked]"])
@catches("server/bin/index-cluster", ''' and 'failed="false"' in row''', "", case="refused",
         also=["test_a_switch_that_does_not_answer_pacemaker_is_named[failed]"])
@pytest.mark.parametrize("operations, answers", [
    ("", False), (PROBED, False), (PROBED + operation("start", -1, 193, -1), False), (PROBED + STARTED, True),
    (PROBED + operation("start", 2, 1, 4), False), (PROBED + operation("start", 2, 1, 2), False),
    (PROBED + operation("start", 2, 1, 4, "last_failure") + operation("stop", 3, 0, 0), False)],
    ids=["new", "asked nothing", "asked", "answered", "refused", "silent", "given up"])
def test_a_switch_answers_once_it_is_started_and_not_while_pacemaker_tries(folder, monkeypatch, operations, answers):
    """By Pacemaker's own crm_mon. Its crm_resource calls a switch running that it only has begun to ask."""
    want_command("crm_mon", "pacemaker-cli-utils")
    states = ('<status><node_state id="1" uname="one" in_ccm="true" crmd="online" join="member" expected="member">'
              '<lrm id="1"><lrm_resources><lrm_resource id="power-one" type="fence_ipmilan" class="stonith">'
              f"{operations}</lrm_resource></lrm_resources></lrm></node_state></status>")
    with open(f"{folder}/cib.xml", "w") as made:
        made.write(cib(switch("one"), primitives="").replace("<status/>", states))
    monkeypatch.setenv("CIB_file", made.name)
    assert runpy.run_path(f"{BIN}/index-cluster")["answers"]("power-one") is answers


def by_crmsh(folder, text):
    """What index-cluster finds wrong with a file, as crmsh itself reads it beside no cluster."""
    want_command("crm", "crmsh")
    want_command("crm_verify", "pacemaker-cli-utils")
    if os.geteuid():
        pytest.skip("only root calls crm, which writes a log of root's")
    with open(f"{folder}/cib.xml", "w") as made, open(f"{folder}/text", "w") as written:
        made.write(cib("", primitives=""))
        written.write(text)
    # the agents are not on this machine
    ended = run_command(["crm", "-F", "configure", "load", "update", f"{folder}/text"], HOME=folder,
                        CIB_file=f"{folder}/cib.xml")
    assert ended.returncode == 0, ended.stdout
    cluster = runpy.run_path(f"{BIN}/index-cluster")
    return cluster["wrong_of"](ElementTree.parse(f"{folder}/cib.xml").getroot(), text, "index", {"one", "two"})


def shipped():
    with open(f"{FILES}/index.crm") as kept:
        return kept.read()


def test_crmsh_reads_the_file_of_the_package_which_lacks_the_power_switches_alone(folder):
    assert by_crmsh(folder, shipped()) == [
        "no power switch is named for one, two, by pcmk_host_list or pcmk_host_map"]


def test_the_file_of_the_package_is_right_once_an_operator_has_put_the_switches_in(folder):
    with_switches = re.sub(r"(?m)^#(primitive power-)", r"\1", shipped())
    assert with_switches.count("CHANGE-ME") == 2
    assert by_crmsh(folder, with_switches) == ["it still has a CHANGE-ME"]
    assert by_crmsh(folder, with_switches.replace("CHANGE-ME", "secret")) == []
    # it warns of machines that it has not seen, since there are none
    ended = run_command(["crm_verify", "-VV", "--xml-file", f"{folder}/cib.xml"])
    assert "warning" in ended.stdout and "error" not in ended.stdout, ended
    # the second time all is as it was
    before = ElementTree.tostring(ElementTree.parse(f"{folder}/cib.xml").getroot())
    run_command(["crm", "-F", "configure", "load", "update", f"{folder}/text"], HOME=folder,
                CIB_file=f"{folder}/cib.xml")
    assert len(ElementTree.tostring(ElementTree.parse(f"{folder}/cib.xml").getroot())) == len(before)


def test_the_file_lets_pacemaker_promote_only_a_whole_copy_and_cut_the_power():
    """The first score is that of a copy which was not connected since it started, the second of one that lacks
    parts. Then the only whole copy may be that of the machine whose power is cut, which has to start again."""
    text = shipped()
    for line in ('adjust_master_score="0 0 1000 10000"', "promotable=true", "promoted-max=1", "stonith-enabled=true",
                 "stonith-action=reboot", "no-quorum-policy=stop",
                 "colocation serves-by-a-copy inf: serves copies:Promoted"):
        assert text.count(line) == 1, line


def test_a_machine_that_starts_alone_waits_for_the_other_one():
    with open(f"{FILES}/corosync.conf") as kept:
        lines = [it.strip() for it in kept]
    for line in ("two_node: 1", "wait_for_all: 1"):
        assert lines.count(line) == 1, line


# of this machine: its role and its disk, what Pacemaker's handler says, whether a person has said that the other
# machine is off; and the status for DRBD and how long the handler is to wait, if it is asked
FENCED = [
    ("Primary/Unknown", "UpToDate/DUnknown", 7, False, 7, "8640000"),
    ("Primary/Unknown", "UpToDate/DUnknown", 4, False, 4, "8640000"),
    ("Primary/Unknown", "UpToDate/DUnknown", 5, False, 1, "8640000"),
    ("Primary/Unknown", "UpToDate/DUnknown", 1, False, 1, "8640000"),
    ("Secondary/Unknown", "UpToDate/DUnknown", 7, False, 7, "30"),
    ("Secondary/Unknown", "UpToDate/DUnknown", 5, False, 1, "30"),
    ("Secondary/Unknown", "Consistent/DUnknown", 7, False, 1, None),
    ("Secondary/Unknown", "Outdated/DUnknown", 4, False, 1, None),
    ("Secondary/Unknown", "Inconsistent/UpToDate", 7, False, 1, None),
    ("Secondary/Unknown", "Consistent/DUnknown", 1, True, 7, None),
    ("Primary/Unknown", "UpToDate/DUnknown", 1, True, 7, None),
]


def fence(folder, role, disk, status, **setting):
    at = f"{folder}/commands"
    stand_ins(at, drbdadm=f"case $1 in role) echo {role} ;; dstate) echo {disk} ;; *) exit 1 ;; esac", logger="",
              handler=f"exit {status}")
    with open(f"{FILES}/index-fence-crm") as kept:
        script, count = re.subn(r"(?m)^PATH=", f"PATH={at}:", kept.read())
    assert count == 1
    words = {"DRBD_RESOURCE": "index", "INDEX_FENCE_HANDLER": f"{at}/handler", "INDEX_FENCE_SAID": f"{folder}/said",
             **setting}
    ended = subprocess.run(["sh", "-c", script], env={**os.environ, **words}, stdout=subprocess.PIPE,
                           stderr=subprocess.STDOUT, timeout=60)
    return ended.returncode, [it for it in called(at).splitlines() if it.startswith("handler")]


@pytest.mark.parametrize("role, disk, answer, is_said, status, patience", FENCED)
def test_drbd_goes_on_if_pacemaker_has_cut_the_power_or_keeps_the_other_from_serving(
        folder, role, disk, answer, is_said, status, patience):
    if is_said:
        with open(f"{folder}/said", "w"):
            pass
    asked = [f"handler --timeout {patience} --dc-timeout {patience}"] if patience else []
    assert fence(folder, role, disk, answer) == (status, asked)
    # what a person said counts once
    assert not os.path.exists(f"{folder}/said")


@pytest.mark.parametrize("minutes, status, asked", [(9, 7, 0), (11, 1, 1), (-5, 1, 1)])
def test_what_a_person_said_is_believed_for_ten_minutes(folder, minutes, status, asked):
    with open(f"{folder}/said", "w") as made:
        os.utime(made.name, (time.time() - 60 * minutes,) * 2)
    found, calls = fence(folder, "Primary/Unknown", "UpToDate/DUnknown", 5)
    assert (found, len(calls)) == (status, asked), calls


def test_without_the_name_that_drbd_gives_pacemaker_is_not_asked(folder):
    assert fence(folder, "Primary/Unknown", "UpToDate/DUnknown", 7, DRBD_RESOURCE="") == (1, [])
