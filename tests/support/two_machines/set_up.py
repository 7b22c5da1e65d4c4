"""Two guests that serve an index by the page for operators, in its blocks as they stand."""
from __future__ import annotations

from collections.abc import Iterable, Iterator
from contextlib import contextmanager

from support.server.waits import wait_for
from support.two_machines.guests import Guest, NoAnswer
from support.two_machines.image import make_image
from support.two_machines.page import block
from support.two_machines.pair import POWER_OFF, Pair, two_guests
from support.two_machines.uploads import Served

FILES, READY, MAKE = "index.res > /etc/drbd.d/index.res", "drbdadm create-md", "mkfs.ext4"
BACK, LEAVE = "drbdadm adjust index\n", "index-leave\n"
TAKE = block("index-take\n", starts=True)
SAID = "touch /run/index-peer-is-off"
# the seconds that a start of the index may take
START = 900


def prepare(guest: Guest) -> None:
    """A machine has the files for two machines. A guest forgets them with its power, since they are in memory."""
    guest.must(block(FILES))
    guest.must(POWER_OFF)


def set_up(pair: Pair) -> Served:
    for guest in pair.guests:
        prepare(guest)
        guest.must(block(READY))
    pair.wait_until_connected()
    first = pair.guests[0]
    first.must(block(MAKE))
    said = first.must(block("index init", "INSTALL"))
    if "created" not in said:
        raise NoAnswer(f"no index was made: {said}")
    take(first)
    index = Served(first)
    if not index.answers():
        raise NoAnswer("the index does not answer")
    return index


def take(guest: Guest, patience: int = 60) -> str:
    """A person runs index-take, again and again while DRBD sees no more than that the other machine is silent."""
    for _ in range(patience):
        status, said = guest.sh(TAKE, START)
        if status == 0:
            return said
    raise NoAnswer(f"{guest.name} does not take over: {said}")


def follow(guest: Guest) -> None:
    """DRBD takes the configuration, and connects. A busy guest needs longer than drbdadm waits, so it is run again."""
    if not wait_for(lambda: guest.sh(block(BACK, starts=True))[0] == 0, START):
        raise NoAnswer(f"{guest.name} does not follow: {guest.sh(block(BACK, starts=True))}")


def adjust(guest: Guest, old: str, new: str) -> None:
    """Changes lines of the configuration by an extended expression of sed."""
    guest.must(f"sed -i -E 's/{old};/{new};/' /etc/drbd.d/index.res")
    follow(guest)


def bring_back(pair: Pair, guest: Guest) -> tuple[float, float]:
    """A machine whose power was cut starts, and is brought up to date: the seconds of both."""
    guest.start()
    booted = guest.booted()
    prepare(guest)
    # twice, as if systemd had done it already
    for _ in range(2):
        follow(guest)
    return booted, pair.wait_until_in_step()


@contextmanager
def served_by_two(program: str, folder: str, besides: Iterable[str] = (),
                  modules: Iterable[str] = ()) -> Iterator[tuple[Pair, Served]]:
    with two_guests(folder, make_image(folder, program, besides, modules)) as pair:
        pair.boot()
        yield pair, set_up(pair)
