"""What bench measures of waits that others cause: a crowd behind nginx, each with a request that no cache answers, and
readers while large files come in."""
import itertools
import os
import tempfile
import threading
import time

from lib import at_once
from lib.at_once import Requests, message_of, part_of
from lib.figures import goal, line, load
from lib.rates import bytes_of
from support.server.front import Front, is_here, make_certificate
from support.serving import Index, accepted

CONNECTIONS, SECONDS, ADDRESSES = 500, 3, 4
# milliseconds: a connection that finds the queue of the index full tries again after a second
LONGEST_BEHIND = 500
LARGE, UPLOADS, EACH = 16 << 20, 5, 0.02
# milliseconds: the index hashes and writes a file of 16 MiB before it answers the next request
LONGEST_READ = 350


class FromSeveral(at_once.Request):
    """A request from one of several addresses in turn: nginx bounds the connections of each."""
    numbers = itertools.count()

    def __init__(self, kind, message, due):
        super().__init__(kind, message, due)
        self.peer.bind((f"127.0.0.{2 + next(self.numbers) % ADDRESSES}", 0))


class Crowd(Requests):
    """Requests, each for the standing of another name."""
    numbers = itertools.count()

    def ask(self):
        due = time.monotonic()
        request = FromSeveral("standing", message_of("GET", f"/names/n{next(self.numbers)}"), due)
        request.peer.connect_ex(self.address)
        self.add(request)


def crowd_waits(port, connections, seconds):
    """The seconds of each request. One that ends is followed by another, until the time is over."""
    with Crowd(port) as crowd:
        until = time.monotonic() + seconds
        for _ in range(connections):
            crowd.ask()
        while (now := time.monotonic()) < until:
            for _ in crowd.step(until - now):
                crowd.ask()
        crowd.finish(30)
        return crowd.waits["standing"]


def room_for(front, connections):
    """Lets a worker of nginx have as many connections as docs/operators/OPERATING.md asks for."""
    path = f"{front.folder}/nginx.conf"
    with open(path, encoding="utf-8") as kept:
        text = kept.read()
    with open(path, "w", encoding="utf-8") as kept:
        kept.write(text.replace("worker_connections 768", f"worker_connections {5 * connections}"))


def bench_behind(program, connections=CONNECTIONS, seconds=SECONDS):
    if not is_here():
        raise SystemExit("nginx or openssl is not installed: Debian has them as nginx-light and openssl")
    with tempfile.TemporaryDirectory() as folder:
        os.chmod(folder, 0o755)
        with Index(program) as index:
            front = Front(f"{folder}/front", make_certificate(folder), index.port, is_plain=True)
            room_for(front, connections)
            with front:
                waits = crowd_waits(front.port, connections, seconds)
    late, most = part_of(waits, 0.99), 1000 * max(waits)
    line("behind", f"nginx, {connections} connections, standings: p99 {late:.0f} ms, longest {most:,.0f}",
         goal(round(most), most=LONGEST_BEHIND), f"{len(waits) / seconds:,.0f} a second", load())


def upload_large(index, count, is_over):
    """Uploads so many large files, one after the other."""
    try:
        for number in range(count):
            accepted(index.upload("large", f"large-1.{number}.tar.gz", os.urandom(LARGE)))
    finally:
        is_over.set()


def bench_readers(program, count=UPLOADS):
    with Index(program) as index:
        accepted(index.claim("small"))
        accepted(index.claim("large"))
        accepted(index.upload("small", "small-1.0.tar.gz", b"small"))
        is_over = threading.Event()
        uploader = threading.Thread(target=upload_large, args=(index, count, is_over), daemon=True)
        waits = []
        uploader.start()
        while not is_over.wait(EACH):
            begun = time.monotonic()
            bytes_of(index, "/simple/small/")
            waits.append(time.monotonic() - begun)
        uploader.join()
    middle, most = part_of(waits, 0.5), 1000 * max(waits)
    line("readers", f"a small page while {count} of 16 MiB come in: p50 {middle:.1f} ms, longest {most:,.0f}",
         goal(round(most), most=LONGEST_READ), load())
