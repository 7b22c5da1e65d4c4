"""The power of the machine that serves is cut again and again, and the other one takes over."""
from __future__ import annotations

import random
import time
from contextlib import ExitStack
from dataclasses import dataclass, field
from statistics import median

from support.two_machines.guests import Guest
from support.two_machines.page import block
from support.two_machines.pair import Pair
from support.two_machines.set_up import SAID, START, TAKE, bring_back, take
from support.two_machines.uploads import Served, Uploader, fetched, log_is_whole, wrong_in

LATEST = 6.0
# how often the cable goes just before the power does
WITH_CABLE = 0.3
# in seconds, between uploads: a database that grows faster makes each round longer than the one before
PAUSE = 0.1


@dataclass
class Rounds:
    """What came of them: how many uploads were acknowledged, what was wrong, and the seconds from each cut to the next
    answer."""
    acknowledged: int = 0
    wrong: list[object] = field(default_factory=list)
    seconds: list[float] = field(default_factory=list)

    def __str__(self) -> str:
        return (f"{len(self.seconds)} rounds, {self.acknowledged} acknowledged, {len(self.wrong)} wrong; answers again "
                f"after {median(self.seconds):.1f} s, {max(self.seconds):.1f} s at the most")


def cut_again_and_again(pair: Pair, index: Served, folder: str, program: str, count: int,
                        chance: random.Random) -> Rounds:
    done = Rounds()
    with ExitStack() as running:
        uploaders = [running.enter_context(Uploader(index, project, random.Random(chance.random()), PAUSE))
                     for project in ("frob", "ham")]
        for number in range(count):
            moment = chance.uniform(1, LATEST)
            time.sleep(moment)
            active = index.guest
            other, cut = pair.other(active), time.monotonic()
            if chance.random() < WITH_CABLE:
                pair.pull_out(active)
                time.sleep(chance.uniform(0, 1))
            active.cut()
            pair.switch.works = True
            if number == count - 1:
                say_that_it_is_off(pair, other, done)
            take(other)
            index.guest = other
            if not index.answers():
                done.wrong.append(f"{other.name} does not answer")
                break
            done.seconds.append(time.monotonic() - cut)
            done.wrong += look(other, folder, program, uploaders)
            booted, step = bring_back(pair, active)
            done.acknowledged = sum(len(it.files) for it in uploaders)
            print(f"round {number + 1}: {active.name} cut after {moment:.1f} s, answers after {done.seconds[-1]:.1f} "
                  f"s, {done.acknowledged} acknowledged, {len(done.wrong)} wrong; back after {booted:.1f} s, in step "
                  f"after {step:.1f} s", flush=True)
    done.acknowledged = sum(len(it.files) for it in uploaders)
    done.wrong += look(index.guest, folder, program, uploaders)
    return done


def say_that_it_is_off(pair: Pair, guest: Guest, done: Rounds) -> None:
    """The power switch is broken too: a machine takes over once a person says that the other one is off."""
    pair.switch.works = False
    # before that DRBD refuses for another reason
    pair.sees_no_other(guest)
    status, said = guest.sh(TAKE)
    if status != 1 or "Refusing to be Primary" not in said:
        done.wrong.append(("it took over by itself", status, said))
    status, said = guest.sh(block(SAID), START)
    if status or guest.sh("ls /run/index-peer-is-off")[0] == 0:
        done.wrong.append(("it did not take over", status, said))
    pair.switch.works = True


def look(guest: Guest, folder: str, program: str, uploaders: list[Uploader]) -> list[object]:
    """What is wrong with the database of a guest, which stands still meanwhile."""
    acknowledged = {file: digest for it in uploaders for file, digest in dict(it.files).items()}
    guest.must("kill -STOP $(pidof index)")
    try:
        path = fetched(guest, folder)
    finally:
        guest.must("kill -CONT $(pidof index)")
    damaged = log_is_whole(path)
    return [damaged] if damaged else wrong_in(path, acknowledged, program)
