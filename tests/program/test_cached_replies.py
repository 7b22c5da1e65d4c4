"""A server that caches bodies and pages answers, byte for byte, what a server that caches nothing answers.

Random changes of each kind go to both, with pages, files and standings between them, asked in each form and more than
once. In some of the `--rounds` allocations of the caching server are refused, and in some a write or a sync of its
files fails. A change that it answers with 500 or 503 changed nothing, so the other server doesn't get it; a look may be
answered so too."""
import json
import os
import time

import pytest
from support.failing import HOWS, Fault
from support.judge import copy_index
from support.serving import JSON_PAGE, Index, make_index, parts_of, reply_to, sha256

ROUNDS = 27
NAMES = "frob", "egg", "spam", "a-b"
BODIES = [bytes([65 + number]) * size for number, size in enumerate((0, 3, 900, 5_000, 12_000))]
FORMS = "text/html", JSON_PAGE, "application/vnd.pypi.simple.v1+html"
# how many bytes are kept: all, some of the bodies, one page
KEPT = 1 << 26, 20_000, 400
CHANGES_OF_A_ROUND = 150
FAULTS = {500, 503}


def message(method, path, body=b"", **headers):
    """The bytes of a message. `X_Index_Token` stands for `X-Index-Token`."""
    lines = [f"{method} {path} HTTP/1.1", "Host: index", *[f"{name.replace('_', '-')}: {value}"
                                                          for name, value in headers.items()]]
    lines += [f"Content-Length: {len(body)}"] if method in ("PUT", "POST") else []
    return "\r\n".join(lines).encode() + b"\r\n\r\n" + body


def request(**keys):
    return message("POST", "/requests", json.dumps(keys).encode(), X_Index_Token="office")


def file_of(chance, name):
    return f"{name.replace('-', '_')}-{chance.choice('123')}.0{chance.choice(('-py3-none-any.whl', '.tar.gz'))}"


def drawn_change(chance):
    """A change of some kind, mostly of what changes a body or a page."""
    name = chance.choice(NAMES)
    file = file_of(chance, name)
    body = chance.choice(BODIES)
    upload = message("PUT", f"/files/{name}/{file}", body, X_Index_Token="office", X_Index_SHA256=sha256(body))
    others = [request(do="claim", name=name), request(do="delete", file=file),
              request(do="yank", name=name, release=f"{chance.choice('123')}.0", reason=chance.choice(("", "bad <b>"))),
              request(do="unyank", name=name, release=f"{chance.choice('123')}.0"),
              request(do="relinquish", name=name), request(do="prohibit", name=name), request(do="allow", name=name),
              request(do="ban_file", file=file), request(do="set_quota", name=name, quota=chance.choice((0, 1 << 30)))]
    weights = 6, 6, 3, 2, 1, 1, 6, 1, 1
    return upload if chance.random() < 0.5 else chance.choices(others, weights)[0]


def drawn_looks(chance):
    """Some looks, each of which may come twice."""
    name = chance.choice(NAMES)
    found = [message(chance.choice(("GET", "HEAD")), path, Accept=chance.choice(FORMS))
             for path in ("/simple/", f"/simple/{name}/")]
    found += [message(chance.choice(("GET", "HEAD")), f"/files/{name}/{file_of(chance, name)}") for _ in range(3)]
    found += [message("GET", f"/names/{name}")]
    return chance.sample(found, 4) * chance.choice((1, 2))


class Pair:
    """A server that caches what it answered, and one that caches nothing, over the same tables."""

    def __init__(self, caching, plain, chance, looked, refusals=None):
        self.caching, self.plain, self.chance, self.looked = caching, plain, chance, looked
        self.refusals = refusals

    def ask(self, index, text):
        try:
            return reply_to(index.port, text)
        except ConnectionRefusedError:
            return b""

    def asked(self, text):
        """The reply of the caching server, one of whose next allocations may be refused, and whether it was."""
        if not self.refusals:
            return self.ask(self.caching, text), False
        self.refusals.refuse(self.chance.randrange(1, 200) if self.chance.random() < 0.3 else 0)
        return self.ask(self.caching, text), self.refusals.was_refused()

    def change(self, text):
        reply, _ = self.asked(text)
        if reply and (parts_of(reply) or (0,))[0] not in FAULTS:
            self.compare(text, reply)

    def look(self, text, may_fail):
        reply, was_refused = self.asked(text)
        is_fault = not reply or (parts_of(reply) or (0,))[0] in FAULTS
        if not (is_fault and (was_refused or may_fail)):
            self.compare(text, reply)

    def compare(self, text, reply):
        other = self.ask(self.plain, text)
        self.looked(reply == other, text[:200], reply[:300], other[:300])


@pytest.fixture(scope="module")
def new_index(program, shared_folder):
    return make_index(program, f"{shared_folder}/new.db")


@pytest.fixture
def how_it_fails(round_number, folder, chance, failing, refusals):
    """By turns: not at all, by refused allocations, or by a call of the caching server's files. It is what refuses
    allocations if it does, what the server finds in its environment, and whether a call fails."""
    if round_number % 3 == 1:
        refusals.begin()
        return refusals, refusals.setting, False
    if round_number % 3 == 2:
        kind = chance.choice(("pwrite", "fdatasync"))
        fault = Fault(kind, chance.randrange(20, 300), chance.choice(HOWS[kind]), False)
        return None, failing.setting(f"{folder}/caching/", fault), True
    return None, {}, False


def test_replies_are_those_of_a_server_that_caches_nothing(program, new_index, round_number, how_it_fails, folder,
                                                           chance, looked):
    """Until the caching server has ended, or all changes are made."""
    refusals, setting, may_fail = how_it_fails
    for name in ("caching", "plain"):
        os.mkdir(f"{folder}/{name}")
    caching_file, plain_file = (copy_index(new_index, f"{folder}/{name}/index.db") for name in ("caching", "plain"))
    at, keep = int(time.time()), KEPT[round_number // 3 % 3]
    with Index(program, path=caching_file, keep=keep, at=at, setting=setting) as caching, \
            Index(program, path=plain_file, keep=0, at=at) as plain:
        pair = Pair(caching, plain, chance, looked, refusals)
        for _ in range(CHANGES_OF_A_ROUND):
            pair.change(drawn_change(chance))
            for text in drawn_looks(chance):
                pair.look(text, may_fail)
            if caching.process.poll() is not None:
                break
        looked(may_fail or caching.process.poll() is None, "it runs, or a call of its files failed", caching.errors())
        looked(plain.process.poll() is None, "the other server runs", plain.errors())
