"""Many requests at once from one process, each on a connection of its own, and how long each waits for the end of its
reply.

wrk does less than parts of bench need: it asks again when a reply came, and not when a request is due, so a slow server
is asked less; it counts a wait from the first byte that it sends, and not from the connect, so a full listen queue is
not seen; and it sends one kind of request."""
import re
import select
import socket
import time
from collections import defaultdict

PIECE = 1 << 18
LENGTH = re.compile(rb"\r\ncontent-length: (\d+)\r\n", re.I)


def message_of(method, path, *headers, body=b""):
    """A request that asks for the end of its connection."""
    lines = f"{method} {path} HTTP/1.1", "Host: localhost", *headers, "Connection: close", "", ""
    return "\r\n".join(lines).encode() + body


class Failed(Exception):
    """A request that had no whole reply, or one that refuses it. Unlike SystemExit it leaves a process of a pool."""


class Request:
    """A request under way: what has to be sent yet, and what came of the reply."""

    def __init__(self, kind, message, due):
        self.kind, self.due, self.left = kind, due, memoryview(message)
        self.head, self.count = b"", 0
        self.peer = socket.socket()
        self.peer.setblocking(False)

    def send(self):
        """Whether all is sent."""
        try:
            while self.left:
                self.left = self.left[self.peer.send(self.left):]
        except BlockingIOError:
            return False
        return True

    def receive(self):
        """Whether the reply has come to its end."""
        try:
            while more := self.peer.recv(PIECE):
                self.count += len(more)
                if b"\r\n\r\n" not in self.head:
                    self.head += more
        except BlockingIOError:
            return False
        return True

    def is_answered(self):
        """Whether the reply is a whole one that refuses nothing."""
        head, end, _ = self.head.partition(b"\r\n\r\n")
        length = LENGTH.search(head + b"\r\n")
        is_well = head[9:12] in (b"200", b"201") and length
        return bool(is_well) and self.count == len(head) + len(end) + int(length[1])


class Requests:
    """Requests to a port of loopback. `waits` has the seconds of each that has ended, by kind, from the moment that it
    was due; the first that ends otherwise raises Failed."""

    def __init__(self, port):
        self.address, self.poll = ("127.0.0.1", port), select.epoll()
        self.under_way, self.waits = {}, defaultdict(list)

    def __enter__(self):
        return self

    def __exit__(self, *_):
        for request in self.under_way.values():
            request.peer.close()
        self.poll.close()

    def begin(self, kind, message, due):
        """Connects and sends at once, so that a server which reads one message at a time waits for none."""
        request = Request(kind, message, due)
        request.peer.connect_ex(self.address)
        self.add(request)

    def add(self, request):
        """Goes on with a request that has begun to connect."""
        self.under_way[request.peer.fileno()] = request
        self.poll.register(request.peer.fileno(), select.EPOLLIN if request.send() else select.EPOLLOUT)

    def step(self, seconds):
        """Goes on with what is ready within so many seconds. It gives the requests that end, each as soon as it
        does."""
        for descriptor, _ in self.poll.poll(max(0, seconds)):
            request = self.under_way[descriptor]
            if self.go_on(descriptor, request):
                yield request

    def go_on(self, descriptor, request):
        """Whether this request has ended now."""
        try:
            if request.left:
                if request.send():
                    self.poll.modify(descriptor, select.EPOLLIN)
                return False
            if not request.receive():
                return False
        except OSError as end:
            raise Failed(f"a {request.kind} failed: {end!r}") from end
        self.waits[request.kind].append(time.monotonic() - request.due)
        self.poll.unregister(descriptor)
        del self.under_way[descriptor]
        request.peer.close()
        if not request.is_answered():
            raise Failed(f"a {request.kind} was answered {request.head[:300]!r}, {request.count} bytes")
        return True

    def go_on_until(self, moment):
        """Goes on with what is ready until this moment, and at least once."""
        left = 1
        while left > 0:
            left = moment - time.monotonic()
            # the last millisecond is not slept, as a sleep may last two
            for _ in self.step(left - 0.001):
                pass

    def finish(self, seconds):
        """Waits for the requests under way, at most so long."""
        until = time.monotonic() + seconds
        while self.under_way:
            if time.monotonic() > until:
                raise Failed(f"{len(self.under_way)} requests had no answer after {seconds} s more")
            for _ in self.step(1):
                pass


def part_of(waits, share):
    """The milliseconds within which this share of the requests was answered."""
    return 1000 * sorted(waits)[min(int(share * len(waits)), len(waits) - 1)]
