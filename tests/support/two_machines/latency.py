"""How many round trips to the second machine an upload waits for: by the time that it takes on links of several
lengths, and, without a clock, by the order in which the kernel saw writes begin and end.

Two are right: the program syncs its log behind what it wrote, and behind the byte that makes it count. DRBD waits for
the other machine with writes, and with no flush. An upload for which the log is made longer waits more often."""
from __future__ import annotations

import random
import re
import time
from collections.abc import Iterator
from dataclasses import dataclass
from statistics import linear_regression, mode, quantiles

from support.two_machines.pair import Pair
from support.two_machines.uploads import Served

WAITS = 2
# the round trips of the links in ms, beside what the guests need
LINKS = 0, 150, 300, 450
SIZE = 1 << 10
# uploads on each link, for each round that is asked for
COUNT = 10
TRACING = "/sys/kernel/tracing"
# DRBD's first disk has the numbers 147 and 0
TRACE = f"""mount -t tracefs tracefs {TRACING}
for what in queue complete; do
    event={TRACING}/events/block/block_bio_$what
    echo 'dev == {147 << 20}' > $event/filter && echo 1 > $event/enable || exit 1
done
"""
EVENT = re.compile(r": block_bio_(queue|complete): 147,0 F?W\w* \d+ \+ (\d+) ")
# TCP sends 14 KiB at first, and the rest of a write once these have arrived; after a pause so again, unless this is 0
AFTER_PAUSE = "/proc/sys/net/ipv4/tcp_slow_start_after_idle"
# in seconds, for which TCP forgets how much the link takes at once
PAUSE = 2


@dataclass
class Upload:
    """The link that it was made on, how often it waited for writes, and the ms that it took."""
    link: float
    waits: int
    took: float


def set_link(pair: Pair, round_trip: float) -> None:
    """Each machine delays what it sends by half of a round trip."""
    for guest in pair.guests:
        guest.must(f"/usr/sbin/tc qdisc replace dev eth1 root netem delay {round_trip * 500:.0f}us limit 10000")


def waits_in(trace: str) -> int:
    """How often a write began while none was under way. An empty one is a flush."""
    waits = under_way = 0
    for what, sectors in EVENT.findall(trace):
        if sectors != "0":
            waits += what == "queue" and not under_way
            # one may have begun before the trace
            under_way = under_way + 1 if what == "queue" else max(under_way - 1, 0)
    return waits


def upload(pair: Pair, index: Served, link: float, body: bytes, looked) -> Upload:
    set_link(pair, link)
    index.guest.must(f"echo > {TRACING}/trace")
    begun = time.monotonic()
    status = index.upload("frob", f"frob-{time.time_ns()}.tar.gz", body)[0]
    took = 1000 * (time.monotonic() - begun)
    looked(status == 201, status)
    return Upload(link, waits_in(index.guest.must(f"cat {TRACING}/trace")), took)


def uploads_by_turns(pair: Pair, index: Served, count: int, pause: float, chance: random.Random,
                     looked) -> Iterator[Upload]:
    """So many on each link, by turns, since a busy machine is slower at one time than at another."""
    for _ in range(count):
        for link in chance.sample(LINKS, len(LINKS)):
            time.sleep(pause)
            yield upload(pair, index, link, chance.randbytes(SIZE), looked)


def round_trips(uploads: list[Upload]) -> tuple[int, float]:
    """How often an upload mostly waits, and the ms that such uploads take longer for each ms of the link, by least
    squares. A busy machine only ever makes one slower, so the lower quartile of each link counts."""
    usual = mode(it.waits for it in uploads)
    took = {link: sorted(it.took for it in uploads if it.link == link and it.waits == usual) for link in LINKS}
    slope = linear_regression(LINKS, [quantiles(took[link], n=4)[0] for link in LINKS]).slope
    print(f"{len(uploads)} uploads, of which {sum(map(len, took.values()))} wait for {usual} writes: {slope:.2f} round "
          f"trips", flush=True)
    for link in LINKS:
        print(f"    {link} ms: {[round(it) for it in took[link]]} ms", flush=True)
    return usual, slope


def measure(pair: Pair, index: Served, count: int, chance: random.Random, looked) -> None:
    """By the clock, an upload waits for as many round trips as the kernel counts, and after a pause for one more, since
    its first write is longer than 14 KiB."""
    index.guest.must(TRACE)
    for after_pause in (0, 1):
        for guest in pair.guests:
            guest.must(f"echo {after_pause} > {AFTER_PAUSE}")
        print(f"after a pause: {after_pause}", flush=True)
        usual, slope = round_trips(list(uploads_by_turns(pair, index, count * COUNT, PAUSE * after_pause, chance,
                                                         looked)))
        looked(usual == WAITS and abs(slope - WAITS - after_pause) < 0.5, "other round trips", usual, slope)
