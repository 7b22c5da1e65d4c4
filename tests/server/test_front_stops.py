"""index-uncache-follow with several nginx: after a signal or a kill at any of its steps a second run leaves nothing in
the cache, and nothing out of the list that the others read."""
import os
import signal
import ssl
import subprocess
import sys
from http.server import BaseHTTPRequestHandler, ThreadingHTTPServer

import pytest
from support.library import followed, fronts
from support.places import BIN
from support.proxy import InThread
from support.server.caches import keys, make_cache
from support.server.front import make_certificate
from support.server.stops import STOPPED
from support.server.waits import wait_for

FILES = [f"frob-1.{it}.tar.gz" for it in range(3)]
LINES = [f'{{"status":200,"method":"DELETE","path":"/files/frob/{it}"}}\n' for it in FILES]
OTHER = "/files/spam/spam-1.tar.gz"


class Giving(InThread):
    """An nginx that gives these lines as its list, through TLS."""

    def __init__(self, folder, certificate):
        text = "".join(LINES).encode()

        class Handler(BaseHTTPRequestHandler):
            def do_GET(self):
                given = text[int(self.headers["Range"].strip("bytes=-")):]
                self.send_response_only(206)
                self.send_header("Content-Length", str(len(given)))
                self.end_headers()
                self.wfile.write(given)

            def log_message(self, *_):
                pass

        trust = ssl.SSLContext(ssl.PROTOCOL_TLS_SERVER)
        trust.load_cert_chain(certificate, f"{os.path.dirname(certificate)}/key")
        self.server = ThreadingHTTPServer(("127.0.0.1", 0), Handler)
        self.server.socket = trust.wrap_socket(self.server.socket, server_side=True)
        self.conf = f"{folder}/packages.conf"
        with open(self.conf, "w") as made:
            made.write(f"listen {self.server.server_port} ssl;\nserver_name packages.example;\n")


class Follower:
    """A follower in a folder of its own: of a log, or of another nginx's list."""

    def __init__(self, at, other=None):
        self.at, self.other = at, other
        make_cache(f"{at}/cache", [("spam", "spam-1.tar.gz"), *(("frob", it) for it in FILES)])
        with open(f"{at}/log", "w") as log:
            log.writelines(LINES)
        read = ["--front", "127.0.0.1", "--conf", other.conf] if other else ["--log", log.name]
        self.words = [f"{BIN}/index-uncache-follow", *read, "--again", "0", "--cache", f"{at}/cache", "--place",
                      f"{at}/place"]

    def done(self):
        """How many lines are before the place that is kept."""
        end, place = 0, followed.place_in(f"{self.at}/place", followed.Place)
        if self.other:
            place = followed.place_in(f"{self.at}/place", fronts.Place)
            return 1 + [sum(map(len, LINES[:it])) for it in range(len(LINES))].index(place.begin) if place else 0
        while place and end < len(LINES) and place.read >= sum(map(len, LINES[:end + 1])):
            end += 1
        return end

    def wrong(self, done):
        """What of the first lines is not done, though the place is behind them."""
        left = [it for it in FILES[:done] if f"/files/frob/{it}" in keys(f"{self.at}/cache")]
        if self.other or not done:
            return left
        with open(f"{self.at}/removed") as kept:
            listed = kept.readlines()
        return left + [it for it in LINES[:done] if it not in listed]

    def is_stopped_at(self, step, number):
        """Whether a run has such a step. One that has no more is ended once all is done."""
        words = [sys.executable, "-B", "-c", STOPPED, str(step), str(int(number)), *self.words]
        with subprocess.Popen(words, stderr=subprocess.DEVNULL, stdout=subprocess.DEVNULL) as running:
            is_well = wait_for(lambda: running.poll() is not None or self.done() == len(LINES))
            is_stopped = running.poll() is not None
            running.kill()
        assert is_well and (running.returncode == -number or not is_stopped), running.returncode
        return is_stopped


@pytest.fixture
def giving(folder, certificate, monkeypatch):
    os.mkdir(f"{folder}/giving")
    made = make_certificate(f"{folder}/giving", "DNS:packages.example")
    monkeypatch.setenv("SSL_CERT_FILE", made)
    with Giving(folder, made) as other:
        yield other


@pytest.mark.slow
@pytest.mark.timeout(1800)
@pytest.mark.parametrize("number", [signal.SIGTERM, signal.SIGKILL])
@pytest.mark.parametrize("is_other", [False, True], ids=["of_a_log", "of_another_nginx"])
def test_stopped_at_each_step_a_second_run_does_all(folder, giving, looked, number, is_other):
    step, has_more = 0, True
    while has_more:
        one = Follower(f"{folder}/{step}", giving if is_other else None)
        has_more = one.is_stopped_at(step, number)
        looked(not one.wrong(one.done()), step, one.done(), one.wrong(one.done()))
        looked(not one.is_stopped_at(10_000, number), step)
        looked(keys(f"{one.at}/cache") == [OTHER] and not one.wrong(len(LINES)), step, one.wrong(len(LINES)))
        step += 1
    print(f"index-uncache-follow: {step - 1} steps by {number.name}")
    assert step > 6
