"""What bench measures of a mix of requests as an organisation has it, with no proxy before the index: pages and files,
mostly of popular projects, beside uploads to other projects."""
import os
import random
import resource
import time

from lib.at_once import Requests, message_of, part_of
from lib.figures import goal, line, load, processor_time
from lib.on_disk import apply, asked, file_name, upload_line
from support.running import new_folder
from support.serving import JSON_PAGE, Index, accepted, make_index, sha256

# of each project a large file and so many small ones; uploads go to the others
PROJECTS, OTHERS, SMALL = 300, 50, 40
LARGE, UPLOADED, MEBIBYTE = 1 << 20, 20 << 10, 1 << 20
# requests a second
RATES = {"upload": 5, "page": 200, "file": 100}
SECONDS, SEED, KEEPS = 20, 1, (0, 64, 256, 1_024)
# with so many MiB to keep there are goals: of a processor, and milliseconds of a page
JUDGED, SHARE, PAGE_WAIT = 256, 30, 30


def filled(program, folder, projects):
    """A database of these projects and of the others."""
    path = make_index(program, f"{folder}/mix.db")
    names = [f"p{number}" for number in range(projects)]
    lines = [asked(do="claim", name=name) for name in (*names, *(f"other{number}" for number in range(OTHERS)))]
    lines += [upload_line(name, 1 + number) for name in names for number in range(SMALL)]
    apply(program, path, lines)
    with Index(program, path=path) as index:
        for name in names:
            accepted(index.upload(name, file_name(name, 0), os.urandom(LARGE)))
    return path


def upload_message(name, file, body):
    return message_of("PUT", f"/files/{name}/{file}", "X-Index-Token: office", f"X-Index-SHA256: {sha256(body)}",
                      f"Content-Length: {len(body)}", body=body)


def message(chosen, kind, name, number):
    """The request of this kind for this project."""
    if kind == "page":
        return message_of("GET", f"/simple/{name}/", f"Accept: {JSON_PAGE}")
    if kind == "file":
        return message_of("GET", f"/files/{name}/{file_name(name, 0)}")
    other = f"other{number % OTHERS}"
    return upload_message(other, f"{other}-9.{number}.tar.gz", chosen.randbytes(UPLOADED))


def requests_of(seconds, projects, first):
    """The requests of so many seconds: when each is due, its kind and its message. They come at random, the same ones
    each time, and a project is asked for by 1 / its rank. Uploads are numbered from `first`."""
    chosen = random.Random(SEED)
    due = [(at, kind) for kind, rate in RATES.items() for at in arrivals(chosen, rate, seconds)]
    weights = [1 / (1 + rank) for rank in range(projects)]
    names = chosen.choices([f"p{number}" for number in range(projects)], weights, k=len(due))
    return [(at, kind, message(chosen, kind, name, first + number))
            for number, ((at, kind), name) in enumerate(zip(sorted(due), names))]


def arrivals(chosen, rate, seconds):
    """Moments that come at random at this rate."""
    at = chosen.expovariate(rate)
    while at < seconds:
        yield at
        at += chosen.expovariate(rate)


def mixed(index, due):
    """The part of a processor that the index took, in percent, and the seconds of the requests by kind."""
    with Requests(index.port) as requests:
        before, begun = processor_time(index.process), time.monotonic()
        for at, kind, text in due:
            requests.go_on_until(begun + at)
            requests.begin(kind, text, begun + at)
        requests.finish(60)
        took = time.monotonic() - begun
        return 100 * (processor_time(index.process) - before) / took, requests.waits


def tell(keep, share, waits):
    late = part_of(waits["page"], 0.99)
    goals = [[goal(share, most=SHARE)], [goal(late, most=PAGE_WAIT)]] if keep == JUDGED else [[], []]
    page, file = (f"{kind} {part_of(waits[kind], 0.5):.1f}, {part_of(waits[kind], 0.99):.0f}"
                  for kind in ("page", "file"))
    line("", f"{keep:,} MiB: {share:.0f}%", *goals[0], page, *goals[1], file)


def bench_mix(program, seconds=SECONDS, projects=PROJECTS):
    # each request that waits has a descriptor here
    _, most = resource.getrlimit(resource.RLIMIT_NOFILE)
    resource.setrlimit(resource.RLIMIT_NOFILE, (most, most))
    rates = ", ".join(f"{rate} {kind}s" for kind, rate in RATES.items())
    with new_folder() as folder:
        path = filled(program, folder, projects)
        line("mix", f"{rates} of 1 MiB a second, {projects} projects by 1/rank, by --keep-recent: processor, "
             "ms of p50, p99,", load())
        for turn, keep in enumerate(KEEPS):
            due = requests_of(seconds, projects, turn * 1_000_000)
            with Index(program, path=path, keep=keep * MEBIBYTE, patience=60) as index:
                tell(keep, *mixed(index, due))
