"""An index behind nginx that has many clients at once, is away for a moment, or ends again and again."""
import math
import os
import re
import subprocess
import threading
import time

import pytest
from support.places import TOP
from support.planted import catches
from support.server.expected import assert_reply
from support.server.farm import PIP, Farm
from support.server.front import seconds_of_waits
from support.server.kept import MOST_REQUESTS, Uploader
from support.server.under_way import Asked
from support.server.waits import wait_for

CLIENTS, READERS, SECONDS = 200, 30, 12
# how often the index ends at the least
LEAST = 3
# the reply of a request that waited in nginx has this header
WAITED = "WWW-Authenticate"


@catches("tests/support/server/front.py", "worker_connections 768;", "worker_connections 40;")
def test_two_hundred_clients_at_once_from_one_address(filled_index, front, looked):
    """Each asks for a page and a file, once."""
    farm = Farm(front, is_patient=False)
    farm.run(*(farm.takes("frob") for _ in range(CLIENTS)))
    looked(not farm.lost, farm.lost, farm.replies)
    looked(farm.replies[200] == 2 * CLIENTS, farm.replies)


class TestAway:
    """What is asked while the index is away."""

    def test_a_get_and_a_put_wait_for_it(self, filled_index, front):
        with filled_index.away():
            put = Asked(front.upload, "frob", "frob-5.0.tar.gz", os.urandom(1 << 20))
            assert wait_for(lambda: front.has_met_nobody("PUT /files/frob/frob-5.0.tar.gz"))
            get = Asked(front.ask, "GET", "/names/frob")
            assert wait_for(lambda: front.has_met_nobody("GET /names/frob"))
        assert_reply(get.ended(), 200)
        assert put.ended()[0] in (200, 201), put.reply

    def test_a_post_is_told_at_once_to_come_again(self, filled_index, front):
        """It is not sent twice."""
        with filled_index.away():
            status, headers, _ = front.claim("later")
        assert (status, headers["Retry-After"], headers[WAITED]) == (503, "2", None), headers.items()

    def test_a_page_is_told_after_the_seconds_that_the_page_for_users_says(self, filled_index, front):
        with filled_index.away():
            asked = Asked(front.ask, "GET", "/simple/later/")
            assert_reply(asked.ended(), 503, "application/json", b"Unavailable")
            assert asked.reply[1][WAITED], asked.reply[1].items()
        with open(f"{TOP}/docs/users/USING.md") as page:
            said = re.findall(r"it says 503, after (\d+) seconds", page.read())
        assert said == [str(math.ceil(seconds_of_waits()))] and asked.seconds > seconds_of_waits() - 0.5, asked.seconds

    def test_a_check_of_health_is_told_at_once(self, filled_index, front):
        with filled_index.away():
            health = front.ask("GET", "/health")
        assert_reply(health, 503)
        assert not health[1][WAITED], health[1].items()

    def test_a_check_of_health_that_asks_again_waits(self, filled_index, front):
        """As docs/operators/INSTALL.md looks whether a new index answers."""
        words = ["curl", "-fsS", "--retry", "5", "--cacert", front.certificate, f"{front.url}/health"]
        with filled_index.away():
            patient = subprocess.Popen(words, stdout=subprocess.PIPE, stderr=subprocess.DEVNULL)
            assert wait_for(lambda: front.has_met_nobody("GET /health"))
        said = patient.communicate(timeout=60)[0]
        assert (patient.returncode, said) == (0, b'{"name":"x","state":"free"}')


@pytest.mark.slow
def test_an_index_that_ends_again_and_again_loses_nothing(filled_index, front, chance, looked, pytestconfig):
    """No request fails for good, and no acknowledged upload is lost."""
    farm, index, starts = Farm(front, is_patient=True), filled_index, filled_index.starts
    until = time.monotonic() + (pytestconfig.option.seconds or SECONDS)

    def goes_on():
        # until it has ended often, however long its starts take
        return time.monotonic() < until or index.starts < starts + LEAST

    async def reads(reader):
        asked = 0
        while goes_on():
            # another type that nobody has, so that the page is not one that nginx keeps
            await farm.takes("frob", f"{PIP}, x/{reader}-{asked}")
            asked += 1

    # it ends by itself too
    index.requests = 500
    uploaders = [Uploader(front, f"ends{at}", math.inf, chance) for at in range(2)]
    ending = threading.Thread(target=index.ends_often, args=(goes_on, chance), daemon=True)
    for it in (*uploaders, ending):
        it.start()
    farm.run(*(reads(at) for at in range(READERS)))
    ending.join()
    for it in uploaders:
        it.stop()
    index.requests = MOST_REQUESTS
    index.starts_again()
    looked(not farm.lost, farm.lost, farm.replies)
    looked(farm.replies[200] > READERS, farm.replies)
    for it in uploaders:
        missing = it.missing(index)
        looked(it.files and not missing, "no acknowledged upload is lost", missing, len(it.files))
