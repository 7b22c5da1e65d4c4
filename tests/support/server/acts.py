"""What dpkg is asked for on a machine that has the package, and what is there when that is done."""
from __future__ import annotations

from dataclasses import dataclass

from support.server.pasted import block

LOG = "/var/log/package-index/changes.log"
FOLDERS = "/var/lib/index /var/backups/index /var/cache/nginx /var/log/nginx /var/log/package-index"
INSTALL = "--force-unsafe-io", "--install", "/root/stepped_1.deb"
# a name of a user, which is given once, and then answered by `already`
CLAIM = ("curl -sf --retry 9 --retry-connrefused -H \"X-Index-Token: $(cat /root/office)\" "
         "-d '{\"do\":\"claim\",\"name\":\"kept\"}' http://127.0.0.1:8080/requests")
# as the page has it, and with the backups of one of several indexes
ENABLES = block("systemctl enable --now index.service").splitlines()[0] + " index-backup@8081.timer"
STARTS = f"echo -1 KILL > /root/stop; dpkg {' '.join(INSTALL)} && {ENABLES} && {CLAIM} && echo kept >> {LOG}"
# names what does not run of that
OFF = f"for it in {ENABLES.partition(' --now ')[2]}; do systemctl is-active --quiet $it || echo $it; done"
# nothing is there of what the package or nginx makes
FRESH = f"dpkg --purge package-index; rm -rf {FOLDERS}; userdel index; ! id -u index"
ASIDE = f"systemctl stop nginx index; tar -Pcf /root/aside.tar {FOLDERS}"
# owners by their names
BACK = f"tar -Pxf /root/aside.tar && systemctl start nginx; {STARTS}"

# what is installed, runs or would start, and what was told to users
LEFT = f"""ls -d /usr/bin/index /lib/systemd/system/index.service /etc/nginx/index/*.conf 2> /dev/null
systemctl list-units --plain --no-legend --state=active,activating \\
    index.service 'index@*.service' index-legacy-upload.service index-uncache-follow.service 'index*.timer'
find /etc/systemd/system -type l -name 'index*'
getent passwd index | cut -d : -f 1
ls /var/lib/index/index.db; ls /var/backups/index | grep -q 'db$' && echo copies; grep -q kept {LOG} && echo log"""
STAYS = "index\n/var/lib/index/index.db\ncopies\nlog\n"
CONFIGURED = "".join(f"/etc/nginx/index/{it}.conf\n" for it in ("callers", "indexes", "kept-pages"))

MADE = f"stat -c '%U %G %a' {FOLDERS} {LOG}; systemctl show -P UnitFileState index; systemctl is-active index"
NEW = ("index index 700\nroot root 700\nroot root 755\nroot root 755\nroot adm 751\nwww-data adm 640\ndisabled\n"
       "inactive\n")


@dataclass(frozen=True)
class Act:
    """The words for dpkg, which are given after the script `before`; then the package has this state, and `shows` says
    what is there. Its scripts have so many steps at the least. `first` and `last` stand around all of it."""
    words: tuple[str, ...]
    before: str
    state: str
    shows: str
    shown: str
    least: int
    first: str = "true"
    last: str = STARTS


ACTS = {
    "install": Act(INSTALL, FRESH, "install ok installed 1", MADE, NEW, 12, ASIDE, BACK),
    "remove": Act(("--remove", "package-index"), STARTS, "deinstall ok config-files 1", LEFT, CONFIGURED + STAYS, 12),
    "purge": Act(("--purge", "package-index"), STARTS, "", LEFT, STAYS, 12),
}
