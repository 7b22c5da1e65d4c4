"""Two machines share a disk by DRBD, as docs/operators/TWO-MACHINES.md sets them up, in its blocks as they stand.

They are virtual machines with Debian's kernel. The power of the one that serves is cut, or the cable between them.
After each takeover all that was acknowledged is there; and never do two indexes accept. With DRBD's own defaults one
file name stands for two bodies, and acknowledged uploads are lost.

Each part takes some minutes, so the gate runs one now and then, by turns. `--two-machines` runs all, `-k rounds` one;
`--rounds N` does N rounds or partitions."""
from __future__ import annotations

import tempfile

import pytest
from support.needed import want_command
from support.two_machines.image import command, want_packages
from support.two_machines.latency import measure
from support.two_machines.partitions import alone_with_defaults, defaults_of_drbd, pull_the_cable
from support.two_machines.rounds import cut_again_and_again
from support.two_machines.second_cuts import cut_both, cut_in_a_resync, cut_the_source, cut_the_target
from support.two_machines.set_up import served_by_two

ROUNDS = 3

pytestmark = [pytest.mark.slow, pytest.mark.timeout(7200)]


@pytest.fixture
def disks():
    """A folder on a disk: qemu opens its files past the kernel's memory."""
    with tempfile.TemporaryDirectory(dir="/var/tmp") as made:
        yield made


def rounds(program, folder, count, chance, looked):
    """The power of the machine that serves is cut: nothing that was acknowledged is lost."""
    with served_by_two(program, folder) as (pair, index):
        for project in ("frob", "ham"):
            looked(index.claim(project)[0] == 200, project)
        done = cut_again_and_again(pair, index, folder, program, count, chance)
        print(done)
        looked.count += done.acknowledged
        looked(not done.wrong and len(done.seconds) == count and done.acknowledged > 0, done.wrong[:5], str(done))


def cable(program, folder, count, chance, looked):
    """The cable is out: never do two indexes accept."""
    with served_by_two(program, folder) as (pair, index):
        looked(index.claim("cable")[0] == 200)
        pull_the_cable(pair, index, folder, program, count, chance, looked)


def defaults(program, folder, count, chance, looked):
    """With DRBD's defaults two indexes accept, and acknowledged uploads are lost, so that the parts above can fail."""
    with served_by_two(program, folder) as (pair, index):
        looked(index.claim("cable")[0] == 200)
        second = defaults_of_drbd(pair, index, looked)
        alone_with_defaults(pair, second, folder, program, chance, looked)


def both(program, folder, count, chance, looked):
    """The power of both machines is cut at once: nothing that was acknowledged is lost."""
    with served_by_two(program, folder) as (pair, index):
        looked(index.claim("frob")[0] == 200)
        cut_both(pair, index, folder, program, count, chance, looked)


def resync_source(program, folder, count, chance, looked):
    """While a machine is brought up to date, the power of the one that serves is cut: nothing is lost there, and the
    other one does not serve."""
    resync(program, folder, count, chance, looked, cut_the_source)


def resync_target(program, folder, count, chance, looked):
    """The same, but its own power is cut: it does not serve until it has all, and then nothing is lost."""
    resync(program, folder, count, chance, looked, cut_the_target)


def resync(program, folder, count, chance, looked, cut):
    with served_by_two(program, folder) as (pair, index):
        looked(index.claim("frob")[0] == 200)
        cut_in_a_resync(pair, index, folder, program, count, chance, looked, cut)


def latency(program, folder, count, chance, looked):
    """An upload waits for the second machine as often as the kernel counts writes that wait, by links of several
    lengths. It prints what it finds."""
    want_command("tc", "iproute2")
    with served_by_two(program, folder, [command("tc")], ["sch_netem"]) as (pair, index):
        looked(index.claim("frob")[0] == 200)
        measure(pair, index, count, chance, looked)


PARTS = {"rounds": rounds, "cable": cable, "defaults": defaults}
BY_HAND = {"both": both, "resync_source": resync_source, "resync_target": resync_target, "latency": latency}


@pytest.mark.by_turns("two_machines")
@pytest.mark.parametrize("part", PARTS)
def test_two_machines(part, program, disks, chance, looked, pytestconfig):
    run_part(PARTS, part, program, disks, chance, looked, pytestconfig)


@pytest.mark.by_hand("two_machines")
@pytest.mark.parametrize("part", BY_HAND)
def test_two_machines_again(part, program, disks, chance, looked, pytestconfig):
    run_part(BY_HAND, part, program, disks, chance, looked, pytestconfig)


def run_part(parts, part, program, disks, chance, looked, pytestconfig):
    want_packages()
    print(f"{part}: seed {pytestconfig.option.seed}", flush=True)
    parts[part](program, disks, pytestconfig.option.rounds or ROUNDS, chance, looked)
