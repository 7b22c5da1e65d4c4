"""Pacemaker keeps an index on one of two machines, as server/two-machines/README.md sets it up, in its blocks as they
stand: nobody does anything, and the other machine takes over.

They are machines of user-mode Linux with a whole Debian, which debootstrap makes once, in /var/tmp/index-pacemaker.
Their disks are in /dev/shm, where a part takes 3 GiB. The power of the one that serves is cut, or the cable between
them is out. All that was acknowledged is there, and never do two indexes accept; with what index-cluster refuses they
do.

Each part takes four to ten minutes, so none is in the gate. `--two-machines` runs all, `-k rounds` one; `--rounds N`
does N rounds."""
from __future__ import annotations

import tempfile

import pytest
from support.two_machines.by_pacemaker import kept_by_pacemaker
from support.two_machines.native import want_packages
from support.two_machines.takeovers import (cut_again_and_again, cut_both, cut_in_a_resync, pull_the_cable,
                                            without_fencing)
from support.two_machines.whole_root import make_root

ROUNDS = 3

pytestmark = [pytest.mark.slow, pytest.mark.timeout(7200), pytest.mark.xdist_group("pacemaker")]


def rounds(pair, index, folder, program, count, chance, looked):
    """The power of the machine that serves is cut: the other one serves, and nothing that was acknowledged is lost."""
    done = cut_again_and_again(pair, index, folder, program, count, chance)
    print(done)
    looked.count += done.acknowledged
    looked(not done.wrong and len(done.seconds) == count and done.acknowledged > 0, done.wrong[:5])


def resync(pair, index, folder, program, count, chance, looked):
    """The same while the other one is brought up to date: the one that was cut serves again."""
    cut_in_a_resync(pair, index, folder, program, chance, looked)


def both(pair, index, folder, program, count, chance, looked):
    """The power of both machines is cut at once: they start, one serves again, and nothing is lost."""
    cut_both(pair, index, folder, program, chance, looked)


def cable(pair, index, folder, program, count, chance, looked):
    """The cable is out: one machine is left, and without a power switch nobody accepts."""
    pull_the_cable(pair, index, folder, program, chance, looked)


def defaults(pair, index, folder, program, count, chance, looked):
    """Without fencing two indexes accept, so that the parts above can fail."""
    without_fencing(pair, index, looked)


PARTS = {"rounds": rounds, "resync": resync, "both": both, "cable": cable, "defaults": defaults}


@pytest.mark.by_hand("two_machines")
@pytest.mark.parametrize("part", PARTS)
def test_pacemaker(part, program, package, chance, looked, pytestconfig):
    want_packages()
    make_root()
    print(f"{part}: seed {pytestconfig.option.seed}", flush=True)
    with tempfile.TemporaryDirectory(dir="/dev/shm") as folder, kept_by_pacemaker(folder, package) as (pair, index):
        for project in ("frob", "cable"):
            looked(index.claim(project)[0] == 200, project)
        PARTS[part](pair, index, folder, program, pytestconfig.option.rounds or ROUNDS, chance, looked)
