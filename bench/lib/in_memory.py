"""What bench measures of memory, and of claims on tables in memory."""
import json
import os
import subprocess
import tempfile
import time

from lib.figures import goal, line, load, median, memory_of
from lib.rates import bytes_of
from support.serving import Index, accepted, sha256

USERS, CLAIMS, FILES, MEBIBYTE = 10_000, 20_000, 10_000, 1 << 20
ACCEPTED = b'{"answer":"accepted"}\n'


def token(user):
    return f"token-{user}"


def user_lines():
    for user in range(USERS):
        yield json.dumps({"at": 1, "token": "office", "do": "add_user", "user": f"user{user}", "office": False,
                          "token_sha256": sha256(token(user).encode())})


def claim_lines():
    for number in range(CLAIMS):
        yield json.dumps({"at": 1, "token": token(number % USERS), "do": "claim", "name": f"name-{number:05}"})


def applied(program, lines, count, number):
    """The seconds of a run over these lines, each of which was accepted."""
    answers = f"{lines}-answers"
    with open(lines, "rb") as given, open(answers, "wb") as taken:
        begun = time.monotonic()
        subprocess.run([program, "apply"], stdin=given, stdout=taken, check=True, timeout=120)
        took = time.monotonic() - begun
    with open(answers, "rb") as kept:
        if kept.read() != ACCEPTED * count:
            raise SystemExit("bench: a line was not accepted")
    return took


def bench_claims(program):
    """Claims by 10,000 users, each by another, less what the run takes without them."""
    with tempfile.TemporaryDirectory() as folder:
        users, claims = list(user_lines()), list(claim_lines())
        for name, lines in (("users", users), ("claims", users + claims)):
            with open(f"{folder}/{name}", "w") as written:
                written.writelines(f"{it}\n" for it in lines)
        without = median(applied, program, f"{folder}/users", USERS)
        took = median(applied, program, f"{folder}/claims", USERS + CLAIMS)
    figure = CLAIMS / max(took - without, 1e-6)
    line("claims", f"{CLAIMS:,} in memory: {figure:,.0f} a second", goal(figure, least=100_000), load())


def reset_peak(process):
    """Lets the peak of the process begin anew, so that filling it doesn't hide what a page takes."""
    with open(f"/proc/{process.pid}/clear_refs", "w") as peak:
        peak.write("5")


def peaks(program):
    """The peaks of a server after a page of one file and after one of many, beside the same files, and the length of
    that."""
    with Index(program) as index:
        for name in ("big", "small"):
            accepted(index.claim(name))
        for number in range(FILES):
            accepted(index.upload("big", f"big-1.{number}.tar.gz", b"%d" % number))
        accepted(index.upload("small", "small-1.0.tar.gz", b"0"))
        reset_peak(index.process)
        bytes_of(index, "/simple/small/")
        small = memory_of(index.process, "VmHWM")
        reset_peak(index.process)
        length = len(bytes_of(index, "/simple/big/"))
        return small, memory_of(index.process, "VmHWM"), length


def bench_page_memory(program):
    small, big, length = peaks(program)
    above = (big - small) / 1024
    line("memory", f"a page of {FILES:,} files, {length:,} bytes: at most {big / 1024:.1f} MiB",
         f"{above:.1f} above a page of 1 file", goal(above, most=8))


def bench_file_memory(program):
    """What stays of a large file that went in and out, in a server that caches nothing and in one that does."""
    for keep in (0, 64 * MEBIBYTE):
        with Index(program, keep=keep) as index:
            accepted(index.claim("big"))
            before = memory_of(index.process, "VmRSS")
            body = os.urandom(16 * MEBIBYTE)
            accepted(index.upload("big", "big-1.0.tar.gz", body))
            if bytes_of(index, "/files/big/big-1.0.tar.gz") != body:
                raise SystemExit("bench: the file came back as another")
            after, peak = (memory_of(index.process, row) for row in ("VmRSS", "VmHWM"))
        line("memory" if keep == 0 else "", f"16 MiB in and out, keeping {keep // MEBIBYTE} MiB: "
             f"{before / 1024:.0f} MiB before, {after / 1024:.0f} after, at most {peak / 1024:.0f}")
