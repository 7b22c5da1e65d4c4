"""The cable between the two machines is out, and both would serve."""
from __future__ import annotations

import http.client
import random
import threading
from contextlib import suppress

from support.server.waits import wait_for
from support.two_machines.guests import Guest, NoAnswer
from support.two_machines.pair import Pair
from support.two_machines.rounds import look
from support.two_machines.set_up import LEAVE, START, TAKE, adjust, prepare, take
from support.two_machines.page import block
from support.two_machines.uploads import Served, Uploader

REFUSED = "Refusing to be Primary while peer is not outdated"
OLD = "Need access to UpToDate data"
SPLIT, STAYS = "--discard-my-data", "drbdadm connect index\n"
# seconds without one acknowledged upload, by which a machine stands still
STILL = 3
# seconds, for emulated machines beside others
PATIENCE = 1800
# On a busy machine the one that serves may need more than the eight seconds that the other one gives it.
GIVE_MORE = "sed -i 's/sleep 8/sleep 120/' /etc/drbd.d/index-fence && grep -q 'sleep 120' /etc/drbd.d/index-fence"


def accepts(guest: Guest) -> bool:
    """Whether an index on this guest accepts a change."""
    with suppress(OSError, http.client.HTTPException):
        return Served(guest).upload("cable", "cable-0.tar.gz", b"0")[0] in (200, 201)
    return False


def cut_cable(pair: Pair, guest: Guest) -> None:
    """Pulls the cable out, until both machines know."""
    guest.put_cable(False)
    if not wait_for(lambda: not any(state.startswith("Connected") for state in pair.states()), PATIENCE):
        raise NoAnswer(f"the guests are still connected: {pair.states()}")


def without_a_switch(pair: Pair, index: Served, uploader: Uploader, looked) -> None:
    """Nobody can tell whether the other machine is off: nobody accepts anything, until the cable is in again."""
    active, other = index.guest, pair.other(index.guest)
    pair.switch.works = False
    cut_cable(pair, active)
    looked(wait_for(lambda: uploader.grown(STILL) == 0, PATIENCE), "the one that serves goes on alone", pair.states())
    for _ in range(2):
        status, said = other.sh(TAKE)
        looked(status == 1 and REFUSED in said, status, said)
    looked(not accepts(other) and uploader.grown(STILL) == 0, "somebody accepts", pair.states())
    active.put_cable(True)
    looked(uploader.goes_on(), "it does not go on with the cable", pair.states())
    pair.wait_until_in_step()
    pair.switch.works = True


def with_a_switch(pair: Pair, index: Served, uploader: Uploader, looked) -> None:
    """Both want to serve: the one that serves cuts the other one's power, and goes on."""
    active, other = index.guest, pair.other(index.guest)
    asked = len(pair.switch.asked)
    other.must(GIVE_MORE)
    active.put_cable(False)
    wants = threading.Thread(target=wants_to_serve, args=(other,))
    wants.start()
    looked(wait_for(lambda: other.process is None, PATIENCE), "the other one is not off", pair.states())
    looked(uploader.goes_on(), "the one that serves does not go on", pair.states())
    wants.join()
    looked(active.process is not None and pair.switch.asked[asked:] == [other.name], pair.switch.asked)


def wants_to_serve(guest: Guest) -> None:
    with suppress(OSError, http.client.HTTPException, ValueError):
        guest.sh(TAKE, patience=60)


def an_old_copy(pair: Pair, index: Served, looked) -> None:
    """A machine that starts alone, behind the other one: it does not take over, even if the newer one is gone."""
    active, other = index.guest, pair.other(index.guest)
    other.start()
    other.booted()
    prepare(other)
    other.must("drbdadm up index")
    asked = len(pair.switch.asked)
    for is_gone in (False, True):
        if is_gone:
            active.cut()
        status, said = other.sh(TAKE)
        looked(status == 1 and OLD in said, is_gone, status, said)
        looked(not accepts(other) and len(pair.switch.asked) == asked, is_gone, pair.switch.asked)
    active.start()
    active.booted()
    for guest in pair.guests:
        guest.put_cable(True)
    prepare(active)
    active.must("drbdadm up index")
    pair.wait_until_in_step()
    take(active)
    looked(index.answers(), "the newer copy does not serve again", pair.states())


def pull_the_cable(pair: Pair, index: Served, folder: str, program: str, count: int, chance: random.Random,
                   looked) -> None:
    with Uploader(index, "cable", random.Random(chance.random())) as uploader:
        for number in range(count):
            looked(uploader.goes_on(), number)
            without_a_switch(pair, index, uploader, looked)
            print(f"partition {number + 1} without a switch: {len(uploader.files)} acknowledged", flush=True)
        with_a_switch(pair, index, uploader, looked)
        an_old_copy(pair, index, looked)
        looked(uploader.goes_on(), "uploads do not go on", pair.states())
    wrong = look(index.guest, folder, program, [uploader])
    print(f"{count + 1} partitions, {len(uploader.files)} acknowledged, {len(wrong)} wrong, longest upload "
          f"{uploader.longest:.1f} s", flush=True)
    looked(not wrong, wrong[:5])


def change(pair: Pair, old: str, new: str) -> None:
    """Another line of the configuration on both machines."""
    for guest in pair.guests:
        adjust(guest, old, new)


def serve_by_force(guest: Guest) -> None:
    """What index-take does, without its look at the configuration, once DRBD sees that the other machine is silent."""
    if not wait_for(lambda: guest.sh("drbdadm primary index")[0] == 0, PATIENCE):
        raise NoAnswer(f"{guest.name} does not become primary")
    guest.must("mount -o noatime /dev/drbd0 /var/lib/index && systemctl start index.service", START)


def defaults_of_drbd(pair: Pair, index: Served, looked) -> Served:
    """With DRBD's own default index-take refuses. Without it one name is bound to two bodies, and a person has to throw
    one of them away. Returns the one that stays."""
    active, other, second = index.guest, pair.other(index.guest), Served(pair.other(index.guest))
    change(pair, "fencing resource-and-stonith", "fencing dont-care")
    pair.switch.works = False
    cut_cable(pair, active)
    status, said = other.sh(TAKE)
    looked(status == 1 and "lacks `fencing resource-and-stonith`" in said, status, said)
    serve_by_force(other)
    looked(second.answers(), "the second index does not answer")
    statuses = [it.upload("cable", "cable-9.9.tar.gz", body)[0] for it, body in ((index, b"one"), (second, b"two"))]
    looked(statuses == [201, 201], statuses)
    active.put_cable(True)
    looked(wait_for(lambda: all(it.startswith("StandAlone") for it in pair.states()), PATIENCE), pair.states())
    other.must(block(SPLIT))
    active.must(block(STAYS, starts=True))
    pair.wait_until_in_step()
    change(pair, "fencing dont-care", "fencing resource-and-stonith")
    pair.switch.works = True
    active.must(block(LEAVE, starts=True))
    take(other)
    looked(second.answers() and second.ask("GET", "/files/cable/cable-9.9.tar.gz")[2] == b"one", "another copy")
    return second


def alone_with_defaults(pair: Pair, index: Served, folder: str, program: str, chance: random.Random, looked) -> None:
    """With DRBD's own default a machine goes on without the other one. If its power is cut then, what it accepted
    meanwhile is lost."""
    active, other = index.guest, pair.other(index.guest)
    change(pair, "fencing resource-and-stonith", "fencing dont-care")
    with Uploader(index, "cable", random.Random(chance.random())) as uploader:
        looked(uploader.goes_on(), "uploads do not go on", pair.states())
        cut_cable(pair, active)
        # the first of these may have begun before
        looked(uploader.goes_on() and uploader.goes_on(), "it does not go on alone", pair.states())
        active.cut()
    serve_by_force(other)
    index.guest = other
    looked(index.answers(), "the second index does not answer")
    wrong = look(other, folder, program, [uploader])
    print(f"alone with DRBD's defaults: {len(uploader.files)} acknowledged, {len(wrong)} lost", flush=True)
    looked(wrong and all(it[0] == "lost" for it in wrong), wrong[:5])
