"""An installation, a removal and a purge of the package, killed or interrupted before each command of its scripts: a
second run ends what was begun, and nothing is lost. `--walks` takes every step; without it some are taken."""
from __future__ import annotations

from collections.abc import Iterator

import pytest
from support.server.acts import ACTS, OFF, Act
from support.server.stepped import SIGNALS, Packages

pytestmark = [pytest.mark.slow, pytest.mark.by_turns("machine"), pytest.mark.xdist_group("machine"),
              pytest.mark.timeout(3600)]
# without --walks one step in so many
STRIDE = 6


@pytest.fixture(params=ACTS)
def act(request: pytest.FixtureRequest, packages: Packages) -> Iterator[Act]:
    found = ACTS[request.param]
    assert packages.machine.sh(found.first).returncode == 0
    yield found
    ended = packages.machine.sh(found.last)
    assert ended.returncode == 0 and packages.machine.has_kept(), ended


def end(packages: Packages, act: Act, looked, said: tuple) -> None:
    """What was begun is ended by dpkg, or else by the same command again."""
    again = packages.dpkg("--configure", "-a")
    looked(again.returncode == 0, again.stdout, *said)
    if packages.state() != act.state:
        again = packages.dpkg(*act.words)
    looked(again.returncode == 0 and packages.state() == act.state, again.stdout, packages.state(), *said)
    shown = packages.machine.sh(act.shows).stdout
    looked(shown == act.shown, shown, act.shown, *said)


@pytest.mark.parametrize("name", SIGNALS)
def test_stopped_at_each_step_a_second_run_ends_it_and_nothing_is_lost(packages, act, name, chance, looked,
                                                                       pytestconfig):
    stride = 1 if pytestconfig.option.walks else STRIDE
    step, states = chance.randrange(stride), []
    while True:
        prepared = packages.machine.sh(act.before)
        assert prepared.returncode == 0, (step, name, states, prepared)
        ended = packages.dpkg(*act.words, before=step, name=name)
        if not packages.was_stopped():
            break
        states.append(packages.state())
        if states[-1].endswith(" installed 1"):
            # dpkg has undone what it began
            off = packages.machine.sh(OFF).stdout
            looked(not off and packages.machine.has_kept(), off, step, name, ended.stdout)
        end(packages, act, looked, (step, name, states[-1], ended.stdout))
        step += stride
    print(f"{act.words[-2]}: {len(states)} of {step} steps by {name}: {sorted(set(states))}")
    looked(len(states) * stride >= act.least, len(states), stride)


@pytest.mark.parametrize("act", ["install"], indirect=True)
def test_killed_within_a_command_that_makes_a_file_a_second_run_makes_it_whole(packages, act, looked):
    call = 0
    while True:
        assert packages.machine.sh(act.before).returncode == 0
        ended = packages.dpkg_killed_within(call, *act.words)
        if not packages.was_stopped("/root/call"):
            break
        end(packages, act, looked, (call, packages.state(), ended.stdout))
        call += 1
    print(f"install: {call} calls")
    looked(call >= 8, call)
