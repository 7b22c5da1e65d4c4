"""The power of a machine is cut, or the cable is out, where Pacemaker keeps the index: nobody does anything."""
from __future__ import annotations

import random
import time

from support.two_machines.by_pacemaker import (MINE, PATIENCE, SEEN, on_both, wait_for, wait_for_serving,
                                               wait_until_in_step)
from support.two_machines.pair import Pair, out_of_step, state_of
from support.two_machines.partitions import accepts
from support.two_machines.rounds import LATEST, PAUSE, Rounds, look
from support.two_machines.second_cuts import BEHIND, QUICKLY
from support.two_machines.uploads import Served, Uploader

# Pacemaker's handler for DRBD says after 90 s that the other machine may be off
LONG = 120
# 16 MiB at this rate are a resync of four minutes and more
SLOWLY = ("sed -i 's/c-min-rate 20M;/c-plan-ahead 0; resync-rate 60k; c-min-rate 20M;/' /etc/drbd.d/index.res && "
          "drbdadm adjust index && sync")


def cut_again_and_again(pair: Pair, index: Served, folder: str, program: str, count: int,
                        chance: random.Random) -> Rounds:
    """The power of the machine that serves is cut under uploads."""
    done = Rounds()
    with Uploader(index, "frob", random.Random(chance.random()), PAUSE) as uploader:
        for number in range(count):
            uploader.goes_on()
            moment = chance.uniform(1, LATEST)
            time.sleep(moment)
            active, cut, asked = index.guest, time.monotonic(), len(pair.switch.cut)
            active.cut()
            index.guest = pair.other(active)
            if not index.answers(PATIENCE):
                done.wrong.append((f"{index.guest.name} does not answer", index.guest.sh(SEEN)))
                break
            done.seconds.append(time.monotonic() - cut)
            if pair.switch.cut[asked:] != [active.name]:
                done.wrong.append(("the power was cut of", pair.switch.cut[asked:]))
            done.wrong += look(index.guest, folder, program, [uploader])
            done.acknowledged = len(uploader.files)
            back = wait_until_in_step(pair, index)
            print(f"round {number + 1}: {active.name} cut after {moment:.1f} s, answers after {done.seconds[-1]:.1f} "
                  f"s, {done.acknowledged} acknowledged, {len(done.wrong)} wrong; back after {back:.1f} s", flush=True)
    done.acknowledged = len(uploader.files)
    done.wrong += look(index.guest, folder, program, [uploader])
    return done


def cut_in_a_resync(pair: Pair, index: Served, folder: str, program: str, chance: random.Random, looked) -> None:
    """The machine that serves is cut while the other one is brought up to date. Only that one has all, so only it goes
    on: it starts again, and serves before the other one is up to date."""
    on_both(pair, SLOWLY)
    active, other = index.guest, pair.other(index.guest)
    with Uploader(index, "frob", random.Random(chance.random()), PAUSE) as uploader:
        looked(uploader.goes_on(), "no uploads", pair.states())
        other.cut()
        active.must(BEHIND)
        looked(wait_for(lambda: other.process) and other.booted(), "it is not started", pair.switch.cut)
        looked(wait_for(lambda: state_of(other).startswith("SyncTarget")), pair.states())
        before = out_of_step(other)
        looked(wait_for(lambda: out_of_step(other) < before), pair.states())
        print(f"{out_of_step(other)} KiB are out of step", flush=True)
        begun, asked = time.monotonic(), len(pair.switch.cut)
        active.cut()
        while not (active.process and index.answers(0.1)) and time.monotonic() < begun + PATIENCE:
            looked(not accepts(other), "a copy that lacks parts serves", pair.switch.cut)
            time.sleep(1)
        looked(pair.switch.cut[asked:] == [active.name], pair.switch.cut[asked:])
        looked(index.answers(1) and uploader.goes_on(), "the whole copy does not serve", other.sh(SEEN))
        looked("Inconsistent" in state_of(active), "the resync was over", pair.states())
        print(f"cut in a resync: {active.name} serves again after {time.monotonic() - begun:.1f} s, {pair.states()}, "
              f"{len(uploader.files)} acknowledged", flush=True)
        wrong = look(active, folder, program, [uploader])
        looked(not wrong, wrong[:5])
        on_both(pair, QUICKLY)
        wait_until_in_step(pair, index)


def cut_both(pair: Pair, index: Served, folder: str, program: str, chance: random.Random, looked) -> None:
    """The power of both machines is cut at once, and both start: one serves again."""
    with Uploader(index, "frob", random.Random(chance.random()), PAUSE) as uploader:
        looked(uploader.goes_on(), "no uploads", pair.states())
        time.sleep(chance.uniform(1, LATEST))
        cut = len(pair.switch.cut)
        for guest in pair.guests:
            guest.cut()
        begun, acknowledged = time.monotonic(), len(uploader.files)
        for guest in pair.guests:
            guest.start()
        for guest in pair.guests:
            guest.booted()
        index.guest = wait_for_serving(pair)
        looked(uploader.goes_on(), "it does not go on", index.guest.sh(SEEN))
        print(f"both cut: {index.guest.name} accepts {time.monotonic() - begun:.1f} s after both are started, "
              f"{acknowledged} acknowledged, {pair.switch.cut[cut:]} cut", flush=True)
        wait_until_in_step(pair, index)
    wrong = look(index.guest, folder, program, [uploader])
    looked(not wrong, wrong[:5])


def one_survives(pair: Pair, index: Served, uploader: Uploader, looked) -> None:
    """The cable is out. Until the power of one machine was cut nobody else accepts anything, and then the other one
    goes on. The one that was cut starts, and does nothing."""
    active, other, cut = index.guest, pair.other(index.guest), len(pair.switch.cut)
    begun = time.monotonic()
    while len(pair.switch.cut) == cut and time.monotonic() < begun + PATIENCE:
        looked(not accepts(other) or len(pair.switch.cut) > cut, "both accept", pair.switch.asked)
        time.sleep(1)
    looked(len(pair.switch.cut) == cut + 1, "no power is cut", pair.switch.asked)
    gone = next(guest for guest in pair.guests if guest.name == pair.switch.cut[cut])
    index.guest = pair.other(gone)
    looked(index.answers(PATIENCE) and uploader.goes_on(), "the one that is left does not go on", pair.switch.asked)
    print(f"{index.guest.name} is left, {'which served' if index.guest is active else 'which did not serve'}, and "
          f"accepts after {time.monotonic() - begun:.1f} s; {len(uploader.files)} acknowledged", flush=True)
    looked(wait_for(lambda: gone.process) and gone.booted(), "it is not started", pair.switch.cut)
    until = time.monotonic() + LONG
    while time.monotonic() < until:
        looked(not accepts(gone), "a machine that starts alone accepts")
        time.sleep(1)
    looked(uploader.goes_on() and len(pair.switch.cut) == cut + 1, "they cut each other", pair.switch.cut)


def pull_the_cable(pair: Pair, index: Served, folder: str, program: str, chance: random.Random, looked) -> None:
    """With a switch that works, and with one that does not answer: uploads wait for the cable."""
    with Uploader(index, "cable", random.Random(chance.random()), PAUSE) as uploader:
        looked(uploader.goes_on())
        out = index.guest
        out.put_cable(False)
        one_survives(pair, index, uploader, looked)
        out.put_cable(True)
        print(f"in step {wait_until_in_step(pair, index):.1f} s after the cable is in", flush=True)
        pair.switch.works = False
        cut = len(pair.switch.cut)
        out.put_cable(False)
        looked(wait_for(lambda: uploader.grown(5) == 0), "it goes on alone")
        until = time.monotonic() + LONG
        while time.monotonic() < until:
            looked(uploader.grown(5) == 0 and not accepts(pair.other(index.guest)), "somebody accepts")
        looked(len(pair.switch.cut) == cut, pair.switch.cut)
        print(f"without a switch nobody accepts for {LONG} s, {pair.states()}", flush=True)
        begun = time.monotonic()
        out.put_cable(True)
        looked(uploader.goes_on(PATIENCE), "it does not go on with the cable", index.guest.sh(SEEN))
        print(f"{index.guest.name} accepts {time.monotonic() - begun:.1f} s after the cable is in", flush=True)
        pair.switch.works = True
        wait_until_in_step(pair, index)
        looked(len(pair.switch.cut) == cut, pair.switch.cut)
    wrong = look(index.guest, folder, program, [uploader])
    looked(not wrong, wrong[:5])


def without_fencing(pair: Pair, index: Served, looked) -> None:
    """What index-cluster refuses: with Pacemaker and DRBD that cut no power both machines accept one file name."""
    active, other, first = index.guest, pair.other(index.guest), pair.guests[0]
    status, said = first.sh(f"sed s/stonith-enabled=true/stonith-enabled=false/ {MINE} > /tmp/no.crm; "
                            "index-cluster /tmp/no.crm")
    looked(status == 1 and "`stonith-enabled=false`" in said, status, said)
    on_both(pair, "sed -i 's/fencing resource-and-stonith;/fencing dont-care;/' /etc/drbd.d/index.res && "
                  "drbdadm adjust index && sync")
    status, said = first.sh(f"index-cluster {MINE}")
    looked(status == 1 and "lacks `fencing resource-and-stonith`" in said, status, said)
    active.must("crm configure property stonith-enabled=false")
    active.put_cable(False)
    second = Served(other)
    looked(second.answers(PATIENCE), "the second index does not answer", other.sh(SEEN))
    statuses = [it.upload("cable", "cable-9.9.tar.gz", body)[0] for it, body in ((index, b"one"), (second, b"two"))]
    print(f"without fencing: {statuses}", flush=True)
    looked(statuses == [201, 201], statuses)
