"""A second cut: the power of both machines is cut at once, or of one while the other is brought up to date."""
from __future__ import annotations

import random
import time
from collections.abc import Callable
from statistics import median

from support.server.waits import wait_for
from support.two_machines.guests import Guest
from support.two_machines.page import block
from support.two_machines.pair import Pair, out_of_step, state_of
from support.two_machines.partitions import PATIENCE, accepts
from support.two_machines.rounds import LATEST, look
from support.two_machines.set_up import BACK, LEAVE, START, TAKE, bring_back, follow, prepare, take
from support.two_machines.uploads import Served, Uploader

# 16 MiB at 40 to 80 KiB a second: a resync takes four minutes or more, so it is under way in the first seconds
BEHIND = "dd if=/dev/urandom of=/var/lib/index/filler bs=4k count=4096 conv=fsync,notrunc"
# a machine takes the rate of the other one when it connects
SLOWLY = "drbdsetup disk-options 0 --c-plan-ahead=0 --resync-rate=40K"
QUICKLY = "drbdsetup disk-options 0 --c-plan-ahead=20 --resync-rate=20M"
NOT_WHOLE, NOT_ALONE = "is not whole (Inconsistent)", "(-2) Need access to UpToDate data"
# seconds between the two cuts of both machines, which is less than a machine needs to see that the other one is gone
APART = 1.5


def cut_both(pair: Pair, index: Served, folder: str, program: str, count: int, chance: random.Random, looked) -> None:
    """The power of both machines is cut at once. They boot, and either one takes over."""
    seconds = []
    with Uploader(index, "frob", random.Random(chance.random())) as uploader:
        for number in range(count):
            looked(uploader.goes_on(), "no uploads", number, pair.states())
            time.sleep(chance.uniform(0, LATEST))
            apart = chance.choice((0, chance.uniform(0, APART)))
            first, second = chance.sample(pair.guests, 2)
            begun = time.monotonic()
            first.cut()
            time.sleep(apart)
            second.cut()
            acknowledged = len(uploader.files)
            boot_both(pair)
            index.guest = chance.choice(pair.guests)
            take(index.guest)
            looked(index.answers(), "it does not answer", pair.states())
            seconds.append(time.monotonic() - begun)
            wrong = look(index.guest, folder, program, [uploader])
            print(f"both cut {number + 1}: {first.name} {apart:.1f} s before {second.name}, {index.guest.name} takes "
                  f"over after {seconds[-1]:.1f} s, {acknowledged} acknowledged, {len(wrong)} wrong", flush=True)
            looked(acknowledged and not wrong, wrong[:5])
    print(f"both cut: {count} times, {len(uploader.files)} acknowledged, answers again after {median(seconds):.1f} s, "
          f"{max(seconds):.1f} s at the most", flush=True)


def boot_both(pair: Pair) -> None:
    for guest in pair.guests:
        guest.start()
    for guest in pair.guests:
        guest.booted()
        prepare(guest)
    for guest in pair.guests:
        guest.must(block(BACK, starts=True))
    pair.wait_until_in_step()


def join(pair: Pair, guest: Guest, rate: str) -> None:
    """A machine that is off starts, and meets the other one once both go by this rate; until then the cable is out."""
    other = pair.other(guest)
    other.put_cable(False)
    guest.start()
    guest.booted()
    prepare(guest)
    follow(guest)
    for it in pair.guests:
        it.must(rate)


def wait_for_progress(other: Guest) -> None:
    """Waits until a resync is under way, and part of it is done."""
    assert wait_for(lambda: state_of(other).startswith("SyncTarget"), PATIENCE), state_of(other)
    before = out_of_step(other)
    assert wait_for(lambda: out_of_step(other) < before, PATIENCE), state_of(other)


def fall_behind(pair: Pair, index: Served, uploader: Uploader, looked) -> None:
    """The machine that does not serve loses its power, and is then brought up to date, slowly."""
    active, other = index.guest, pair.other(index.guest)
    other.cut()
    looked(uploader.goes_on() and uploader.goes_on(), "no uploads", pair.states())
    active.must(BEHIND)
    join(pair, other, SLOWLY)
    active.put_cable(True)
    wait_for_progress(other)


def look_refused(other: Guest, looked, first: str = "") -> None:
    """A machine whose copy lacks parts does not serve."""
    status, found = other.sh(first + TAKE, START)
    looked(status == 1 and NOT_WHOLE in found and not accepts(other), first, status, found, state_of(other))


def look_refused_alone(other: Guest, looked) -> None:
    """Nor if a person says that the other machine is off, which counts once."""
    looked("Inconsistent/" in state_of(other), "it was no resync", state_of(other))
    look_refused(other, looked, "touch /run/index-peer-is-off && ")
    looked(other.sh("ls /run/index-peer-is-off")[0] != 0, "what a person said stays")
    status, said = other.sh("drbdadm primary index")
    looked(status == 17 and NOT_ALONE in said, status, said)


def cut_the_source(pair: Pair, index: Served, uploader: Uploader, looks: Callable[[], None], looked) -> None:
    """The machine that serves is cut while the other one is copied from it. Only that one has all, so only it goes on:
    as soon as it is back, and before the other one is up to date, for which DRBD now copies the whole disk."""
    active, other = index.guest, pair.other(index.guest)
    look_refused(other, looked)
    active.cut()
    looked(pair.sees_no_other(other), pair.states())
    look_refused_alone(other, looked)
    join(pair, active, SLOWLY)
    other.put_cable(True)
    wait_for_progress(other)
    # DRBD alone would take this copy now, and read what it lacks from the other machine
    look_refused(other, looked)
    take(active)
    looked(index.answers() and uploader.goes_on(), "the newer copy does not serve", pair.states())
    looked("Inconsistent/" in state_of(other), "the resync was over", pair.states())
    looks()


def cut_the_target(pair: Pair, index: Served, uploader: Uploader, looks: Callable[[], None], looked) -> None:
    """The machine that is brought up to date is cut. The other one goes on, and brings it up to date once it is back.
    Until then it does not serve. Once it has all, it does, alone."""
    active, other = index.guest, pair.other(index.guest)
    look_refused(other, looked)
    before = out_of_step(active)
    other.cut()
    looked(uploader.goes_on() and uploader.goes_on(), "the one that serves does not go on", pair.states())
    looks()
    join(pair, other, SLOWLY)
    look_refused_alone(other, looked)
    active.put_cable(True)
    wait_for_progress(other)
    print(f"{before} KiB were out of step at the cut, {out_of_step(active)} are in the resync after it", flush=True)
    look_refused(other, looked)
    active.must(block(LEAVE, starts=True))
    # DRBD alone would take this copy now, as above
    look_refused(other, looked)
    take(active)
    looked(index.answers() and uploader.goes_on(), "it does not serve again", pair.states())
    looked("Inconsistent/" in state_of(other), "the resync was over", pair.states())
    begin_again(pair)
    active.cut()
    take(other)
    index.guest = other
    looked(index.answers() and uploader.goes_on(), "the copy that has all does not serve", pair.states())
    looks()


def begin_again(pair: Pair) -> None:
    """Both machines run and have the same disk."""
    for guest in pair.guests:
        if guest.process is None:
            bring_back(pair, guest)
    for guest in pair.guests:
        guest.must(QUICKLY)
    pair.wait_until_in_step()


def cut_in_a_resync(pair: Pair, index: Served, folder: str, program: str, count: int, chance: random.Random, looked,
                    cut: Callable[..., None]) -> None:
    """While one machine is brought up to date, the power of one of the two is cut."""
    with Uploader(index, "frob", random.Random(chance.random())) as uploader:
        def looks() -> None:
            wrong = look(index.guest, folder, program, [uploader])
            print(f"{index.guest.name} serves, {len(uploader.files)} acknowledged, {len(wrong)} wrong, "
                  f"{time.monotonic() - begun:.0f} s", flush=True)
            looked(not wrong, wrong[:5])

        for number in range(count):
            begun = time.monotonic()
            if number:
                begin_again(pair)
            fall_behind(pair, index, uploader, looked)
            time.sleep(chance.uniform(0, LATEST))
            print(f"{number + 1}: {out_of_step(index.guest)} KiB are out of step", flush=True)
            cut(pair, index, uploader, looks, looked)
