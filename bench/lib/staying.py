"""What bench measures of the memory that stays: after an opening of small files, and after large uploads, each without
and with the lines for it in server/systemd/index.service."""
import os
import re
import tempfile

from lib.figures import goal, line, memory_of
from lib.on_disk import apply, asked, file_name
from lib.rates import bytes_of
from support.places import TOP
from support.serving import Index, accepted, make_index, sha256

FILES, LENGTH, ROUNDS, LARGE = 10_000, 10_000, 20, 16 << 20
# of the most that an opening took, what may stay by the unit's lines
MOST_STAYS = 0.2
# so many uploads go to the program at once
AT_ONCE = 1_000
SETTING = re.compile(r"^Environment=(MALLOC_\w+)=(\d+)$", re.M)


def setting():
    """What the unit sets for the allocator."""
    with open(f"{TOP}/server/systemd/index.service") as unit:
        return dict(SETTING.findall(unit.read()))


def uploads(numbers, length):
    for number in numbers:
        body = os.urandom(length)
        yield asked(do="upload", file=file_name("small", number), sha256=sha256(body), hex=body.hex(),
                    requires_python="")


def filled(program, folder, files, length):
    """A database of so many files of this length."""
    path = make_index(program, f"{folder}/index.db")
    apply(program, path, [asked(do="claim", name="small")])
    for first in range(0, files, AT_ONCE):
        apply(program, path, list(uploads(range(first, min(first + AT_ONCE, files)), length)))
    return path


def tell(name, what, measure, is_opening=False):
    """The memory that stays, and the most that was taken, without and with the unit's lines."""
    of_unit = setting()
    if not of_unit:
        raise SystemExit("server/systemd/index.service sets nothing for the allocator")
    same = "by " + " ".join(map("=".join, of_unit.items()))
    for begins, said, given in ((name, what, {}), ("", same, of_unit)):
        stays, most = measure(given)
        more = [goal(round(stays / most, 2), most=MOST_STAYS)] if given and is_opening else []
        line(begins, f"{said}: {stays / 1024:,.0f} MiB stay, at most {most / 1024:,.0f}", *more)


def taken(index):
    return memory_of(index.process, "VmRSS"), memory_of(index.process, "VmHWM")


def opened(program, path, given):
    """The memory of a server that has opened this database, in KiB."""
    with Index(program, path=path, patience=120, keep=0, setting=given) as index:
        bytes_of(index, "/files/small/" + file_name("small", 0))
        return taken(index)


def uploaded(program, rounds, length, given):
    """The memory of a server through which so many large files went, in KiB: in, out and deleted."""
    with Index(program, keep=0, setting=given) as index:
        accepted(index.claim("large"))
        for number in range(rounds):
            file, body = file_name("large", number), os.urandom(length)
            accepted(index.upload("large", file, body))
            if bytes_of(index, f"/files/large/{file}") != body:
                raise SystemExit("bench: the file came back as another")
            accepted(index.ask("DELETE", f"/files/large/{file}", X_Index_Token="office"))
        return taken(index)


def bench_opened(program, files=FILES, length=LENGTH):
    with tempfile.TemporaryDirectory() as folder:
        path = filled(program, folder, files, length)
        size = os.path.getsize(path) / (1 << 20)
        tell("opened", f"{files:,} files, {size:,.0f} MiB", lambda it: opened(program, path, it), is_opening=True)


def bench_uploaded(program, rounds=ROUNDS, length=LARGE):
    tell("uploaded", f"{rounds} of {length >> 20} MiB, each in, out, deleted",
         lambda it: uploaded(program, rounds, length, it))
