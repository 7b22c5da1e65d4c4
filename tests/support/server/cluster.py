"""Stand-ins for DRBD and Pacemaker on one of two machines that Pacemaker keeps an index on."""
from __future__ import annotations

import os
import subprocess
import sys
from collections.abc import Sequence

from support.places import BIN
from support.running import run_command
from support.server.stand_ins import called, stand_ins, written
from support.server.two_machines import SHOWN, TURN

# each stand-in fails, or has a signal sent to who called it, at its turn
DRBDADM = TURN + """
case $1 in
    sh-dev) [ "$2" = index ] || { echo "'$2' not defined in your config (for this host)."; exit 1; }
            echo /dev/drbd0 ;;
    dump) cat dumped ;;
esac
"""
# with CIB_file it reads and writes that file, and without it what Pacemaker has
CRM = TURN + 'cat made > "${CIB_file:-live}"'
# a warning, and what Pacemaker has of each switch
CRM_MON = TURN + 'echo "crm_mon: warning" >&2; echo "<pacemaker-result><resources>"; cat switches; echo "</resources>"'
STATE = '    <resource id="power-{}" resource_agent="stonith:fence_ipmilan" role="{}" active="true" failed="{}"/>\n'
DUMPED = """resource index {
    on one {
    }
    on two {
    }
    handlers {
        fence-peer       /etc/drbd.d/index-fence-crm;
        after-resync-target /usr/lib/drbd/crm-unfence-peer.sh;
    }
}
"""
DRBD = '<primitive id="drbd" class="ocf" provider="linbit" type="drbd"><instance_attributes id="a"><nvpair id="b" ' \
       'name="drbd_resource" value="index"/></instance_attributes></primitive>'
FILE = "index.crm"


def switch(hosts: str, type: str = "fence_ipmilan", name: str = "pcmk_host_list") -> str:
    """A power switch, as Pacemaker has it."""
    return (f'<primitive id="power-{hosts[:3]}" class="stonith" type="{type}"><instance_attributes id="i">'
            f'<nvpair id="n" name="{name}" value="{hosts}"/></instance_attributes></primitive>')


def cib(switches: str, nodes: Sequence[str] = ("one", "two"), primitives: str = DRBD, **properties: str) -> str:
    """A configuration of Pacemaker."""
    pairs = "".join(f'<nvpair id="p-{name}" name="{name}" value="{value}"/>' for name, value in properties.items())
    known = "".join(f'<node id="{at}" uname="{name}"/>' for at, name in enumerate(nodes, 1))
    return ('<cib crm_feature_set="3.16.1" validate-with="pacemaker-3.9" epoch="1" num_updates="0" admin_epoch="0" '
            'have-quorum="1">'
            f'<configuration><crm_config><cluster_property_set id="p">{pairs}</cluster_property_set></crm_config>'
            f"<nodes>{known}</nodes><resources>{switches}{primitives}</resources><constraints/></configuration>"
            "<status/></cib>\n")


class Cluster:
    """One of two machines, with a file for Pacemaker: `before` is what it has at first, `made` what it has with it."""

    def __init__(self, folder: str) -> None:
        self.at, self.temporary = f"{folder}/commands", f"{folder}/temporary"
        os.mkdir(self.temporary)
        self.path = stand_ins(self.at, drbdadm=DRBDADM, drbdsetup=TURN + "cat shown", cibadmin=TURN + "cat live",
                              crm=CRM, crm_mon=CRM_MON)
        self.file, self.before, self.made = f"{self.at}/{FILE}", cib(""), cib(switch("one") + switch("two"))
        self.put(shown=SHOWN, dumped=DUMPED, live=self.before, made=self.made, **{FILE: "\n"},
                 switches=STATE.format("one", "Started", "false") + STATE.format("two", "Started", "false"))

    def put(self, **texts: str) -> None:
        for name, text in texts.items():
            with open(f"{self.at}/{name}", "w") as made:
                made.write(text)

    def remove(self, name: str) -> None:
        os.remove(f"{self.at}/{name}")

    def run(self, *words: str) -> subprocess.CompletedProcess:
        """The end of index-cluster with these words, or with the file alone."""
        if os.path.exists(f"{self.at}/called"):
            self.remove("called")
        return run_command([sys.executable, f"{BIN}/index-cluster", *(words or [self.file])], PATH=self.path,
                           TMPDIR=self.temporary, INDEX_CLUSTER_PATIENCE="0")

    def called(self) -> list[str]:
        """What changed something, or asked a switch. What has a copy of the configuration changes nothing."""
        lines = called(self.at).splitlines()
        loads = [it for it in lines if it.startswith("crm configure")]
        return loads + [it for it in lines if it.startswith("crm_mon")]

    def live(self) -> str:
        return written(f"{self.at}/live")
