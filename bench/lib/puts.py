"""What bench measures of uploads over HTTP, on a disk: beside sqlite_server, which syncs each of them too."""
import http.client
import os
import statistics
import sys
import tempfile
import time
from contextlib import ExitStack

from lib.figures import ROUNDS, goal, line, load, processor_time
from lib.mix import upload_message
from lib.rates import bytes_of
from support.places import TOP
from support.serving import Asking, Index, Running, accepted, exchange, free_port, listens, reply_to

SERVER = f"{TOP}/bench/lib/sqlite_server.py"
# how a length is printed and the uploads of a round, and the goals: processor time beside that of the other server
SIZES = {3: ("3 bytes", 100), 100 << 10: ("100 KiB", 50), 1 << 20: ("1 MiB", 20), 16 << 20: ("16 MiB", 3)}
GOALS = {3: 0.6, 1 << 20: 1.6}


class Python(Running, Asking):
    """sqlite_server, on a database in this folder."""

    def __init__(self, folder):
        self.port = free_port()
        super().__init__([sys.executable, SERVER, str(self.port), f"{folder}/python.db"])

    def __enter__(self):
        super().__enter__()
        if not listens(self.port):
            self.__exit__()
            raise SystemExit("bench: the server of Python does not listen")
        return self

    def ask(self, method, path, body=None, **headers):
        return exchange(http.client.HTTPConnection("127.0.0.1", self.port, timeout=30), method, path, body, headers)


def uploaded(server, messages):
    """The milliseconds of each of these uploads, by the clock and of a processor, which is the mean of all."""
    before, waits = processor_time(server.process), []
    for message in messages:
        begun = time.monotonic()
        reply = reply_to(server.port, message)
        waits.append(1000 * (time.monotonic() - begun))
        if not reply.startswith(b"HTTP/1.1 201 "):
            raise SystemExit(f"bench: an upload was answered {reply[:300]!r}")
    return statistics.median(waits), 1000 * (processor_time(server.process) - before) / len(messages)


def measured(servers, length, count):
    """The medians of the rounds, in which the servers take turns: by the clock and of a processor, for each server."""
    seen = [[] for _ in servers]
    for number in range(ROUNDS):
        bodies = [os.urandom(length) for _ in range(count)]
        files = [f"frob-{length}.{number}.{at}.tar.gz" for at in range(count)]
        messages = [upload_message("frob", file, body) for file, body in zip(files, bodies)]
        for server, figures in zip(servers, seen):
            figures.append(uploaded(server, messages))
            if bytes_of(server, f"/files/frob/{files[-1]}") != bodies[-1]:
                raise SystemExit("bench: the file came back as another")
    return [[statistics.median(each) for each in zip(*figures)] for figures in seen]


def bench_puts(program):
    with tempfile.TemporaryDirectory() as folder, ExitStack() as running:
        servers = [running.enter_context(it) for it in (Index(program), Python(folder))]
        for server in servers:
            accepted(server.claim("frob"))
        line("puts", "beside Python and sqlite3: ms by the clock, ms of a processor,", load())
        for length, (said, count) in SIZES.items():
            (clock, processor), (their_clock, theirs) = measured(servers, length, count)
            more = [goal(processor / theirs, most=GOALS[length])] if length in GOALS else []
            line("", f"{said}: {clock:.2f}/{their_clock:.2f} = {clock / their_clock:.2f}",
                 f"{processor:.2f}/{theirs:.2f} = {processor / theirs:.2f}", *more)
