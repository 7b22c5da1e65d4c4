"""An upgrade, killed or interrupted before each command of the package's scripts: the index goes on, and dpkg ends what
was begun or says what to do. `--walks` takes every step; without it some are taken."""
from __future__ import annotations

import pytest
from support.server.stepped import REINSTALL, SIGNALS

pytestmark = [pytest.mark.slow, pytest.mark.by_turns("machine"), pytest.mark.xdist_group("machine"),
              pytest.mark.timeout(3600)]
# without --walks one step in so many
STRIDE = 8
DONE = "install ok installed 2"


@pytest.mark.parametrize("name", SIGNALS)
def test_stopped_at_each_step_the_index_goes_on_and_a_second_run_ends_the_upgrade(packages, name, chance, looked,
                                                                                  pytestconfig):
    stride = 1 if pytestconfig.option.walks else STRIDE
    step, states = chance.randrange(stride), []
    while True:
        ended = packages.install(2, before=step, name=name)
        if not packages.was_stopped():
            break
        states.append(packages.state())
        said = step, name, states[-1], ended.stdout
        looked(packages.machine.sh("systemctl is-active index").returncode == 0 and packages.machine.has_kept(), *said)
        again = packages.dpkg("--configure", "-a")
        looked(again.returncode == 0 or REINSTALL in again.stdout, again.stdout, *said)
        if packages.state() != DONE:
            # it was cut off in the old package's scripts
            again = packages.install(2)
        looked(again.returncode == 0 and packages.state() == DONE, again.stdout, *said)
        looked(packages.program() == "/usr/bin/index" and packages.machine.has_kept(), packages.program(), *said)
        assert packages.install(1).returncode == 0
        step += stride
    print(f"upgrade: {len(states)} of {step} steps by {name}: {sorted(set(states))}")
    assert len(states) * stride >= 16 and packages.install(1).returncode == 0
