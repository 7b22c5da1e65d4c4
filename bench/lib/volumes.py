"""What bench measures of an index with a volume if it is asked to: it is moved there and back, copied after a day,
restored, and takes large uploads."""
import glob
import os
import random
import shutil
import sqlite3
import statistics
import struct
import subprocess
import tempfile
import time
from contextlib import closing
from typing import NamedTuple

from lib.figures import goal, line, load, memory_of, processor_time
from lib.on_disk import MEBIBYTE, file_name, milliseconds
from support.places import BIN
from support.serving import OFFICE, Index, accepted, make_index, sha256

MOVED, KEPT, DAY, LARGE, UPLOADS = 5 * 10**9, 8 * 10**9, 10**8, 16 * MEBIBYTE, 10
# seconds for each way of a move, how often what is new may be written, and of the time of cp
MOST_SECONDS, MOST_WRITTEN, MOST_OF_COPY = 180, 1.1, 1.25
# of a start: seconds of a processor, MiB, and how often what one of as many small files takes
MOST_OF_START, MOST_MEMORY, MOST_OF_SMALL, STARTS = 1, 64, 1.1, 5
NEAR, FAR = 10**9, 10**12
# side by side
REQUESTS, ROUNDS = 50, 5


class Cost(NamedTuple):
    """The seconds by the clock and of processors that a command took, and how many bytes it wrote to the disk."""
    seconds: float
    processor: float
    written: int


def written(process="self"):
    """The bytes that a process, and all whose end it has seen, wrote to the disk."""
    with open(f"/proc/{process}/io") as kept:
        return next(int(row.split()[1]) for row in kept if row.startswith("write_bytes:"))


def cost(*words, **setting):
    before, begun, used = written(), time.monotonic(), os.times()
    ended = subprocess.run(words, stdout=subprocess.PIPE, stderr=subprocess.STDOUT, env={**os.environ, **setting})
    if ended.returncode:
        raise SystemExit(f"bench: {words}: {ended.stdout.decode()}")
    now = os.times()
    processor = now.children_user + now.children_system - used.children_user - used.children_system
    return Cost(time.monotonic() - begun, processor, written() - before)


def bodies(size, part=1):
    """Files of 1 to 16 MiB, of so many bytes together, or of each such a part alone; the last one is of 16 MiB."""
    chance, left = random.Random(1), size - LARGE
    while left > 0:
        made = min(left, chance.randint(MEBIBYTE, LARGE))
        left -= made
        yield os.urandom(made // part)
    yield os.urandom(LARGE)


def place(volume, body):
    volume.write(body)
    return struct.pack(">QQ", volume.tell() - len(body), len(body))


def fill(path, size, part=1):
    """Adds a project `big` with such files to an index, in its volume if it has one."""
    has_volume = os.path.exists(f"{path}-volume")
    bytes_of_files = f"{path}-volume" if has_volume else os.devnull
    with closing(sqlite3.connect(path, isolation_level=None)) as database, open(bytes_of_files, "ab") as volume:
        database.execute("PRAGMA synchronous = OFF")
        database.execute("INSERT INTO names VALUES ('big', 1, 'big', ?, 0, 0, 1)", (1 << 40,))
        database.execute("INSERT INTO owners VALUES ('big', 'office')")
        for number, body in enumerate(bodies(size, part)):
            row = file_name("big", number), "big", f"1.{number}", bytes.fromhex(sha256(body)), len(body), "", 1
            database.execute("INSERT INTO files VALUES (?, ?, ?, ?, ?, ?, ?)", row)
            database.execute("INSERT INTO blobs VALUES (?, ?)", (row[0], place(volume, body) if has_volume else body))
            database.execute("UPDATE names SET live = live + 1, charged = charged + ? WHERE name = 'big'", (len(body),))
    forget(path)
    return path


def forget(*paths):
    """Has these files read from the disk again."""
    for path in (it + end for it in paths for end in ("", "-volume") if os.path.exists(it + end)):
        with open(os.path.realpath(path), "rb") as file:
            os.fsync(file.fileno())
            os.posix_fadvise(file.fileno(), 0, 0, os.POSIX_FADV_DONTNEED)


def bench_moved(program, size=MOVED, old=None):
    """Moves an index there and back. `old` is a program that tests databases without a volume, if it is another one."""
    with tempfile.TemporaryDirectory() as folder:
        path = fill(make_index(program, f"{folder}/index.db"), size)
        for way, tested_by in (("--volume", program), ("--one-file", old or program)):
            took = cost(f"{BIN}/index-migrate", way, path, INDEX=tested_by)
            for aside in glob.glob(f"{folder}/before-*"):
                shutil.rmtree(aside)
            forget(path)
            line("moved", f"{way} of {size / 1e9:.1f} GB: {took.seconds:.0f} s, {size / took.seconds / 1e6:.0f} MB/s",
                 goal(round(took.seconds), most=MOST_SECONDS * size // MOVED), f"{took.processor:.0f} s of processors",
                 f"{took.written / size:.2f} times its bytes written", load())


def upload(index, size, begin):
    """Uploads files of so many bytes together. Returns how many there are."""
    made = list(bodies(size))
    for number, body in enumerate(made):
        accepted(index.upload("big", file_name("big", begin + number), body))
    return len(made)


def make_pair(program, folder, size, part=1):
    os.mkdir(folder)
    words = [program, "init", "--db", f"{folder}/index.db", *OFFICE, "--volume"]
    if subprocess.run(words, stdout=subprocess.DEVNULL).returncode:
        raise SystemExit("bench: the program makes no index with a volume")
    return fill(f"{folder}/index.db", size, part)


def move_last(path, begin):
    """Moves the bytes of the file that ends last behind a hole of the volume."""
    with closing(sqlite3.connect(path)) as database, open(f"{path}-volume", "r+b") as volume:
        file, last = database.execute("SELECT file, max(body) FROM blobs").fetchone()
        at, size = struct.unpack(">QQ", last)
        volume.seek(at)
        body = volume.read(size)
        volume.seek(begin)
        database.execute("UPDATE blobs SET body = ? WHERE file = ?", (place(volume, body), file))
        database.commit()
    forget(path)


def start_cost(program, path):
    """The least seconds of a processor that a start takes, and the most MiB of memory."""
    seconds, most = [], []
    for _ in range(STARTS):
        with Index(program, path=path, patience=600) as index:
            seconds.append(processor_time(index.process))
            most.append(memory_of(index.process, "VmHWM") / 1024)
    return min(seconds), max(most)


def bench_far(program, size=KEPT):
    """Starts of an index of large files, of the same with the last one far behind the others, and of small ones."""
    with tempfile.TemporaryDirectory() as folder:
        small, _ = start_cost(program, make_pair(program, f"{folder}/small", size, size // NEAR))
        path = make_pair(program, f"{folder}/var", size)
        for what, begin in ((f"{size / 1e9:.0f} GB", 0), ("the last file at 1 TB", FAR)):
            if begin:
                move_last(path, begin)
            took, most = start_cost(program, path)
            line("far" if not begin else "", f"{what}: a start takes {took:.3f} s of a processor",
                 goal(round(took, 3), most=MOST_OF_START), f"{most:.0f} MiB", goal(round(most), most=MOST_MEMORY),
                 f"of as many files of an eighth {small:.3f} s, ratio {took / small:.2f}",
                 goal(round(took / small, 2), most=MOST_OF_SMALL), load())


def backup(program, path, folder):
    """What a backup costs, of another second than the one before."""
    time.sleep(1)
    return cost(f"{BIN}/index-backup", path, folder, INDEX=program)


def bench_kept(program, size=KEPT, day=DAY):
    with tempfile.TemporaryDirectory() as folder:
        path, copies = make_pair(program, f"{folder}/var", size), f"{folder}/copies"
        os.mkdir(copies)
        first = backup(program, path, copies)
        with Index(program, path=path) as index:
            upload(index, day, 10**6)
            second = backup(program, path, copies)
        ratio = second.written / (day + os.path.getsize(path))
        line("kept", f"{size / 1e9:.1f} GB: a first backup {first.seconds:.0f} s, {first.processor:.0f} of processors",
             f"after {day / 1e6:.0f} MB more {second.seconds:.1f} s, {second.processor:.1f} of processors",
             f"{ratio:.3f} times these and the database written", goal(ratio, most=MOST_WRITTEN), load())
        shutil.rmtree(os.path.dirname(path))
        put_back(program, folder, max(glob.glob(f"{copies}/*.db")))


def put_back(program, folder, copy):
    """A restore, beside copies of the same files before and after it."""
    taken = {"cp": [], "restored": []}
    for name in ("cp", "restored", "cp"):
        forget(copy)
        os.mkdir(f"{folder}/{name}")
        target = f"{folder}/{name}/index.db"
        words = ["sh", "-c", 'cp "$0" "$1" && cp "$0-volume" "$1-volume" && sync "$1" "$1-volume"', copy, target]
        if name == "restored":
            words = [f"{BIN}/index-restore", "--unit", "none", "--db", target, "--url", "http://127.0.0.1:1",
                     "--with-pypi", f"{folder}/none", "--changes", f"{folder}/none", copy]
        taken[name].append(cost(*words, INDEX=program))
        shutil.rmtree(f"{folder}/{name}")
    copied, restored = sum(it.seconds for it in taken["cp"]) / 2, taken["restored"][0]
    size = sum(os.path.getsize(copy + end) for end in ("", "-volume"))
    line("restored", f"{size / 1e9:.1f} GB: {restored.seconds:.1f} s, {restored.processor:.1f} of processors", "cp "
         + " and ".join(f"{it.seconds:.1f} s, {it.processor:.1f} of processors" for it in taken["cp"]),
         f"ratio {restored.seconds / copied:.2f}",
         goal(round(restored.seconds / copied, 2), most=MOST_OF_COPY), load())


def took(index, ask, numbers):
    """The milliseconds of a processor of an index for each of these requests, and the median by the clock."""
    before, waits = processor_time(index.process), [milliseconds(lambda: ask(it)) for it in numbers]
    return 1000 * (processor_time(index.process) - before) / len(waits), statistics.median(waits)


def costs_of(program, folder, *words):
    """What uploads of 100 bytes and of 1 MiB cost, and files of 1 MiB that nobody asked for before."""
    path = f"{folder}/index.db"
    os.mkdir(folder)
    subprocess.run([program, "init", "--db", path, *OFFICE, *words], stdout=subprocess.DEVNULL, check=True)
    small, large = [os.urandom(100) for _ in range(REQUESTS)], [os.urandom(MEBIBYTE) for _ in range(REQUESTS)]
    with Index(program, path=path) as index:
        accepted(index.claim("big"))
        costs = [took(index, lambda at, made=made: index.upload("big", file_name("big", at), made[at % REQUESTS]),
                      range(first, first + REQUESTS)) for first, made in ((0, small), (REQUESTS, large))]
    forget(path)
    with Index(program, path=path) as index:
        costs.append(took(index, lambda at: index.ask("GET", f"/files/big/{file_name('big', at)}"),
                          range(REQUESTS, 2 * REQUESTS)))
    return costs


def bench_beside(program):
    """The same requests to an index in one file and to one with a volume, in the median of rounds by turns."""
    rounds = []
    with tempfile.TemporaryDirectory() as folder:
        for number in range(ROUNDS):
            rounds.append([costs_of(program, f"{folder}/{number}{it}", *it) for it in ((), ("--volume",))])
    for at, (what, most) in enumerate((("upload of 100 bytes", None), ("upload of 1 MiB", 1), ("file of 1 MiB", 1))):
        one, two = (tuple(statistics.median(it[way][at][row] for it in rounds) for row in (0, 1)) for way in (0, 1))
        line("" if at else "beside", f"{what}: {one[0]:.2f} ms of a processor in one file, {two[0]:.2f} in a volume",
             *([goal(round(two[0] / one[0], 2), most=most)] if most else []),
             f"{one[1]:.2f} and {two[1]:.2f} ms by the clock", load())


def bench_written(program):
    """What uploads of 16 MiB in a row write."""
    with tempfile.TemporaryDirectory() as folder:
        path = make_pair(program, f"{folder}/var", 0)
        with Index(program, path=path) as index:
            before, made = written(index.process.pid), [os.urandom(LARGE) for _ in range(UPLOADS)]
            for number, body in enumerate(made):
                accepted(index.upload("big", file_name("big", number), body))
            ratio = (written(index.process.pid) - before) / (LARGE * UPLOADS)
    line("written", f"{UPLOADS} uploads of 16 MiB write {ratio:.3f} times their bytes", goal(ratio, most=MOST_WRITTEN),
         load())
