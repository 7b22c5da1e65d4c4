"""Two guests that Pacemaker keeps an index on, set up by the blocks of the pages: the power of the one that serves is
cut, or the cable between them is out, and nobody does anything."""
from __future__ import annotations

import time
from collections.abc import Callable, Iterator
from concurrent.futures import ThreadPoolExecutor
from contextlib import contextmanager, suppress

from support.places import SERVER
from support.server.network import of_its_own
from support.two_machines.guests import Guest, NoAnswer
from support.two_machines.native import FRONT, NativePair, two_native_guests
from support.two_machines.page import BLOCK, block
from support.two_machines.pair import Pair, state_of
from support.two_machines.set_up import FILES, LEAVE, MAKE, READY
from support.two_machines.uploads import Served
from support.two_machines.whole_root import make_disk

# in seconds, for guests beside others
PATIENCE = 900
CONF = "/etc/corosync/corosync.conf"
KEY = "head -c 256 /dev/zero > /etc/corosync/authkey && chmod 400 /etc/corosync/authkey"
MINE = "/etc/drbd.d/index.crm"
SWITCH = "primitive power stonith:fence_trial params pcmk_host_list=\"one two\" op monitor interval=300s timeout=120s"
# whether Pacemaker lets either machine serve, for all that DRBD's handler has told it
IS_FREE = "cibadmin --query > /run/cib && ! grep -q drbd-fence-by-handler /run/cib"
SEEN = "crm_mon -1rf"


def wait_for(is_so: Callable[[], object], seconds: float = PATIENCE) -> bool:
    """Whether it was so before these seconds were over. A guest that boots can't tell yet, and none is asked all the
    time, since it has one processor."""
    until = time.monotonic() + seconds
    while time.monotonic() < until:
        with suppress(NoAnswer, OSError):
            if is_so():
                return True
        time.sleep(1)
    return False


def part(start: str) -> str:
    """The block of the README of server/two-machines that has this."""
    with open(f"{SERVER}/two-machines/README.md", encoding="utf-8") as kept:
        found, = [text for text in BLOCK.findall(kept.read()) if start in text]
    return found


def with_devices(text: str) -> str:
    """A block with the disk of a guest and the address of this machine, in the lines that an operator fills in."""
    return text.replace("disk=/dev/vdb", "disk=/dev/ubdb").replace("nginx=192.0.2.1", f"nginx={FRONT}")


def on_both(pair: Pair, *scripts: str) -> None:
    with ThreadPoolExecutor(len(pair.guests)) as pool:
        list(pool.map(lambda guest: [guest.must(script) for script in scripts], pair.guests))


def set_up(pair: Pair) -> Served:
    begun, first = time.monotonic(), pair.guests[0]
    on_both(pair, with_devices(block(FILES)), block(READY))
    pair.wait_until_connected()
    first.must(block(MAKE))
    first.must(block("index init", "INSTALL").replace("office=$(openssl rand -hex 32)", "office=office"))
    first.must(block(LEAVE, starts=True))
    print(f"two machines after {time.monotonic() - begun:.1f} s", flush=True)
    on_both(pair, part(f"corosync.conf > {CONF}"), KEY)
    on_both(pair, part("systemctl enable corosync pacemaker"))
    if not wait_for(lambda: "Online: [ one two ]" in first.sh("crm_mon -1")[1]):
        raise NoAnswer(f"Pacemaker does not run on both: {first.sh(SEEN)}")
    print(f"Pacemaker on both after {time.monotonic() - begun:.1f} s", flush=True)
    load(first)
    index = Served(wait_for_serving(pair))
    print(f"{index.guest.name} serves after {time.monotonic() - begun:.1f} s", flush=True)
    wait_until_in_step(pair, index)
    return index


def load(guest: Guest) -> None:
    """Without a power switch it is refused, and with one it is loaded."""
    loads = part("cp --no-clobber")
    status, said = guest.sh(loads)
    if status != 1 or "no power switch is named for one, two" not in said:
        raise NoAnswer(f"a file without a power switch is not refused: {status} {said}")
    guest.must(f"sed -i '/^#primitive power-two/d; s/^#primitive power-one .*/{SWITCH}/' {MINE}")
    guest.must(f"export INDEX_CLUSTER_PATIENCE={PATIENCE}\n{loads}", PATIENCE)


def serving(pair: Pair) -> list[Guest]:
    """The guests whose index answers."""
    return [guest for guest in pair.guests if guest.process and Served(guest).answers(0.1)]


def wait_for_serving(pair: Pair) -> Guest:
    if not wait_for(lambda: serving(pair)):
        raise NoAnswer(f"no index answers: {pair.guests[0].sh(SEEN)}")
    return serving(pair)[0]


def is_in_step(pair: Pair, index: Served) -> bool:
    """Whether both copies are up to date, and Pacemaker lets either serve."""
    return (all("UpToDate/UpToDate" in state_of(guest) for guest in pair.guests)
            and index.guest.sh(IS_FREE)[0] == 0 and "Unpromoted: [" in index.guest.sh("crm_mon -1")[1])


def wait_until_in_step(pair: Pair, index: Served) -> float:
    """The seconds until the other machine can take over. Nobody does anything."""
    begun, other = time.monotonic(), pair.other(index.guest)
    if not wait_for(lambda: other.process):
        raise NoAnswer(f"{other.name} is not started: {index.guest.sh(SEEN)}")
    other.booted()
    if not wait_for(lambda: is_in_step(pair, index)):
        raise NoAnswer(f"{other.name} does not come back: {pair.states()} {index.guest.sh(SEEN)}")
    return time.monotonic() - begun


@contextmanager
def kept_by_pacemaker(folder: str, package: str) -> Iterator[tuple[NativePair, Served]]:
    with of_its_own(), two_native_guests(folder, make_disk(folder, package)) as pair:
        print(f"booted after {pair.boot():.1f} s", flush=True)
        yield pair, set_up(pair)
