"""A program that is stopped and started again serves what was there, and one ends after as many requests as it was
given."""
from support.clients.curl import Curl, fill, shown
from support.packages import make_packages
from support.seen import Seen
from support.serving import Index, make_index


def test_all_is_there_after_a_restart(program, folder, looked):
    path = make_index(program, f"{folder}/index.db")
    with Index(program, path=path) as index:
        curl = Curl(index.port, folder, looked)
        fill(curl, make_packages(folder))
        before = shown(curl)
    looked(all(end == (0, "200") for _, end, _ in before), Seen("what a reader sees", before, 200))
    with Index(program, path=path) as index:
        again = shown(Curl(index.port, folder, looked))
        looked(again == before, Seen("the same after a restart", again, before))
        looked(index.errors() == b"", Seen("standard error", index.errors(), "nothing"))


def test_two_requests_and_the_program_ends(program, folder, looked):
    with Index(program, requests=2) as index:
        curl = Curl(index.port, folder, looked)
        for _ in range(2):
            curl.ask("/simple/").tells(200)
        looked(index.process.wait(timeout=60) == 0, Seen("--requests 2", index.process.returncode, 0))
