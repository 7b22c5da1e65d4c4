"""An outside watcher hears of each look that finds all well, by the block of OPERATING, and so misses one that does not
come."""
import http.server
import os
import re
import shlex
import threading
from pathlib import Path

import pytest
from support.needed import want_command
from support.running import run_command
from support.server.pasted import block
from support.server.stand_ins import called, stand_ins

HEARTBEAT = "index-heartbeat@.service"


class Watcher(http.server.BaseHTTPRequestHandler):
    """One that keeps what it was asked for, and answers the first of these by 503."""
    asked: list[str] = []

    def do_GET(self):
        self.asked.append(self.path)
        self.send_response_only(503 if len(self.asked) == 1 else 200)
        self.end_headers()


@pytest.fixture
def watcher():
    Watcher.asked = []
    with http.server.ThreadingHTTPServer(("127.0.0.1", 0), Watcher) as serving:
        threading.Thread(target=serving.serve_forever, kwargs={"poll_interval": 0.01}, daemon=True).start()
        yield f"http://127.0.0.1:{serving.server_port}/ping"
        serving.shutdown()


@pytest.fixture
def units(tmp_path, watcher):
    """What the block leaves in the folder of units."""
    text = block("url=https://watcher.example/ping").replace("https://watcher.example/ping", watcher)
    path = stand_ins(f"{tmp_path}/bin", systemctl="")
    (tmp_path / "etc/systemd/system").mkdir(parents=True)
    ended = run_command(["bash", "-ec", text.replace("/etc/", f"{tmp_path}/etc/")], PATH=path)
    assert (ended.returncode, ended.stdout) == (0, "")
    assert called(f"{tmp_path}/bin") == "systemctl daemon-reload\nsystemctl start index-health index-alarms\n"
    return Path(tmp_path / "etc/systemd/system")


@pytest.mark.told("the machine, its network, its mail or `index-alarms.timer` is off")
def test_each_look_that_finds_all_well_is_told_to_the_watcher(units):
    """systemd starts the unit of OnSuccess= after a look that ended by 0, and after no other."""
    want_command("curl", "curl")
    for it in "health", "alarms":
        kept = (units / f"index-{it}.service.d/heartbeat.conf").read_text()
        assert kept == f"[Unit]\nOnSuccess=index-heartbeat@{it}.service\n"
        begin, = re.findall(r"^ExecStart=(.*)$", (units / HEARTBEAT).read_text(), re.M)
        assert run_command(shlex.split(begin.replace("%i", it))).returncode == 0
    # one that the watcher answered by an error is told again
    assert Watcher.asked == ["/ping/health", "/ping/health", "/ping/alarms"]


def test_systemd_reads_the_units_of_the_watcher(units, tmp_path):
    want_command("systemd-analyze", "systemd")
    for it in "health", "alarms":
        (units / f"index-{it}.service").write_text("[Service]\nType=oneshot\nExecStart=/bin/true\n")
    (units / "index-heartbeat@health.service").symlink_to(HEARTBEAT)
    ended = run_command(["systemd-analyze", "verify", "--man=no", str(units / "index-health.service"),
                         str(units / "index-heartbeat@health.service")], SYSTEMD_UNIT_PATH=f"{units}:")
    assert ended.returncode == 0 and str(units) not in ended.stdout, ended.stdout
    assert sorted(os.listdir(tmp_path / "etc/systemd/system/index-health.service.d")) == ["heartbeat.conf"]
