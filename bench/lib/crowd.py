"""What bench measures of many connections at once: how long clients wait for a small page, beside nginx with the same
bytes. A wait counts from the connect on, which wrk leaves out."""
import multiprocessing
import os
import statistics
import subprocess
import tempfile
import time
from contextlib import ExitStack

from lib.at_once import Requests, message_of, part_of
from lib.figures import ROUNDS, goal, line, load
from lib.rates import bytes_of, file_servers
from lib.servers import check_same
from support.serving import JSON_PAGE, Index, Running, accepted, listens

CONNECTIONS, SECONDS, PATH = 500, 2, "/simple/small/"
# the processes of the client, and the most that each asks in a round
CLIENTS, MOST = 2, 200_000
# milliseconds: one that meets a full listen queue tries again after a second
LONGEST = 999


def ask_on(port, path, connections, begin, seconds):
    """The seconds of each of the requests of one process, which begin at this moment. One that ends is followed by
    another, until the time is over."""
    message = message_of("GET", path, f"Accept: {JSON_PAGE}")
    until, left = begin + seconds, MOST - connections
    with Requests(port) as requests:
        time.sleep(max(0, begin - time.monotonic()))
        for _ in range(connections):
            requests.begin("page", message, time.monotonic())
        while left > 0 and (now := time.monotonic()) < until:
            for _ in requests.step(until - now):
                left -= 1
                requests.begin("page", message, time.monotonic())
        requests.finish(10)
        return requests.waits["page"]


def crowded(port, path, connections, seconds):
    """The seconds of the requests of all processes."""
    each = port, path, connections // CLIENTS, time.monotonic() + 0.3, seconds
    with multiprocessing.Pool(CLIENTS) as clients:
        found = clients.starmap_async(ask_on, [each] * CLIENTS).get(timeout=seconds + 30)
    return [wait for waits in found for wait in waits]


def serve_page(running, program):
    """The ports of the index and of nginx, and the paths at which they have the same page."""
    folder = running.enter_context(tempfile.TemporaryDirectory())
    os.makedirs(f"{folder}/files")
    os.chmod(folder, 0o755)
    servers = file_servers(folder)
    if "nginx" not in servers:
        raise SystemExit("nginx is not installed: Debian has it as nginx-light")
    words, port = servers["nginx"]
    index = running.enter_context(Index(program))
    accepted(index.claim("small"))
    accepted(index.upload("small", "small-1.0.tar.gz", b"small"))
    page = bytes_of(index, PATH)
    with open(f"{folder}/files/small", "wb") as kept:
        kept.write(page)
    running.enter_context(Running(words, stdout=subprocess.DEVNULL, stderr=subprocess.DEVNULL))
    if not listens(port, patience=5):
        raise SystemExit("bench: nginx does not listen")
    ports = {"index": (index.port, PATH), "nginx": (port, "/small")}
    check_same({name: f"http://127.0.0.1:{at}{path}" for name, (at, path) in ports.items()}, page)
    return ports, len(page)


def overflows():
    """How often on this machine a connection met a full listen queue."""
    with open("/proc/net/netstat") as kept:
        names, counts = [row.split() for row in kept if row.startswith("TcpExt:")]
    return int(dict(zip(names, counts))["ListenOverflows"])


def tell(name, rounds, seconds, full):
    """The p99 of a server, after it is printed."""
    late = statistics.median(part_of(waits, 0.99) for waits in rounds)
    most, rate = 1000 * max(map(max, rounds)), statistics.median(map(len, rounds)) / seconds
    more = [goal(most, most=LONGEST)] if name == "index" else []
    more += [f"the listen queue was full {full:,} times"] if most > LONGEST else []
    line("", f"{name} {late:.0f}, {most:,.0f}", *more, f"{rate:,.0f} a second")
    return late


def bench_crowd(program, connections=CONNECTIONS, seconds=SECONDS):
    with ExitStack() as running:
        ports, length = serve_page(running, program)
        rounds, full = {name: [] for name in ports}, dict.fromkeys(ports, 0)
        for _ in range(ROUNDS):
            for name, (port, path) in ports.items():
                full[name] -= overflows()
                rounds[name].append(crowded(port, path, connections, seconds))
                full[name] += overflows()
    line("crowd", f"{connections} connections, a page of {length} bytes: ms of p99, longest wait,", load())
    late = {name: tell(name, each, seconds, full[name]) for name, each in rounds.items()}
    ratio = late["index"] / late["nginx"]
    line("", f"ratio of p99 {ratio:.2f}", goal(ratio, most=2))
