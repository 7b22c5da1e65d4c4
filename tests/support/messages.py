"""Messages that are malformed or odd, made from well-formed ones. None of them bears a token that somebody has."""
from support.serving import JSON_PAGE

STRANGER = b"X-Index-Token: a token that nobody bears\r\n"
BODY = b'{"do":"claim","name":"egg"}'
CASE = b'{"do":"open_case","name":"frob","kind":"reuse","contact":"mail","work":"a \\u00e9","why":"\xc3\xa9"}'
DIGEST = b"X-Index-SHA256: ba7816bf8f01cfea414140de5dae2223b00361a396177a9cb410ff61f20015ad\r\n"


def post(body, length=None):
    length = len(body) if length is None else length
    return b"POST /requests HTTP/1.1\r\n" + STRANGER + b"Content-Length: %d\r\n\r\n" % length + body


WELL_FORMED = [
    b"GET /simple/ HTTP/1.1\r\nHost: index\r\nAccept: text/html;q=0.5, */*;q=0.1\r\n\r\n",
    b"GET /simple/frob/ HTTP/1.1\r\nHost: index\r\nAccept: " + JSON_PAGE.encode() + b"\r\nUser-Agent: pip/23\r\n\r\n",
    b"GET /simple/Frob?a=b HTTP/1.0\r\n\r\n",
    b"HEAD /simple/frob/ HTTP/1.1\r\nHost: index\r\n\r\n",
    b"GET /names/frob HTTP/1.1\r\nHost: index\r\n\r\n",
    b"GET /files/frob/frob-1.0.tar.gz HTTP/1.1\r\nHost: index\r\nRange: bytes=0-1\r\n\r\n",
    b"PUT /files/frob/frob-1.2.tar.gz HTTP/1.1\r\n" + STRANGER + DIGEST +
    b"X-Requires-Python: >=3.8\r\nContent-Length: 3\r\n\r\nabc",
    b"DELETE /files/frob/frob-1.0.tar.gz HTTP/1.1\r\n" + STRANGER + b"\r\n",
    post(BODY),
    post(CASE),
    b"GET /simple/frob/ HTTP/1.1\r\nAccept: text/html;q=0.5\r\nAccept: image/png\r\nAccept:\r\n"
    b"Accept: */*;q=0.1\r\n\r\n",
]
# heads with more lines than one may have: they have no end yet, but no more bytes would make them right
TOO_LONG = [method + b" /simple/ HTTP/1.1\r\n" + b"X-Many: x\r\n" * 65 for method in (b"GET", b"HEAD")]
METHODS = [
    b"get", b"GETT", b"", b" GET", b"G\x00T", b"OPTIONS", b"TRACE", b"CONNECT", b"PATCH", b"POST", b"PUT", b"HEAD",
    b"M" * 9_000
]
TARGETS = [
    b"", b"*", b"simple/", b"/", b"//", b"/simple//", b"/simple/../simple/", b"/simple/%66rob/", b"/simple/fr%",
    b"/simple/%zz/", b"/simple/%00/", b"/simple/%ff%fe/", b"/simple/\xc3\xa9/", b"/simple/frob/extra/",
    b"/simple/frob%2F/", b"/simple/#x", b"/?/simple/", b"/files/frob/../frob/frob-1.0.tar.gz",
    b"/files/spam/frob-1.0.tar.gz", b"/files/frob/frob-9.tar.gz", b"/files/frob/x", b"/names/", b"/names/%2e%2e",
    b"/names/-", b"/names/" + b"n" * 300, b"/requests/", b"/requests?x", b"http://index/simple/",
    b"/simple/" + b"f" * 20_000, b"/simple/frob/ x", b"/" + b"%41" * 5_000
]
VERSIONS = [
    b"HTTP/1.0", b"HTTP/1.2", b"HTTP/2.0", b"HTTP/0.9", b"HTTP/1.1 ", b"http/1.1", b"", b"HTTP/11", b"HTTP/1.1\x00"
]
LENGTHS = [
    b"-1", b"+3", b"3 3", b"0x3", b"3,3", b"", b" 3 ", b"\t3", b"03", b"000000000000000003", b"0000000000000000003",
    b"123456789012345678", b"1234567890123456789", b"16777216", b"16777217", b"65537", b"99999999999",
    b"3\r\nContent-Length: 3", b"3\r\ncontent-length: 4", b"3\r\nTransfer-Encoding: chunked",
    b"0\r\nTransfer-Encoding:", b"\xb3", b"1e1"
]
LINES = [
    b"X-Odd: " + b"v" * 16_300, b"X-Odd:" + bytes(range(1, 10)), b"X-Odd: \x7f\xff", b"X Odd: 1", b": 1", b"X-Odd",
    b"X-Odd : 1", b" folded", b"\tfolded", b"X-Odd: 1\r", b"X-Odd: a\nX-More: b", b"X-Odd: a\rX-More: b", b"\x00: 1",
    b"Host: a\r\nHost: b", b"Accept: */*;q=0", b"Accept: " + b"a/b," * 2_000, b"Accept: text/html;q=1.5, ,;;=",
    b"Accept:", b"Connection: keep-alive", b"Upgrade: h2c", b"Expect: 100-continue",
    b"X-Index-Token: a\r\nX-Index-Token: office", b"Transfer-Encoding: chunked", b"Content-Length: 5"
]
STRANGE = [
    b"", b"\r\n", b"\n", b"\r\n\r\n", b"\x00" * 100, b"\xff" * 17_000, b"PRI * HTTP/2.0\r\n\r\nSM\r\n\r\n",
    b"\x16\x03\x01\x02\x00\x01\x00\x01\xfc\x03\x03", b"GET /simple/\r\n", b"GET\r\n\r\n",
    b"\r\n\r\nGET /simple/ HTTP/1.1\r\n\r\n", b"GET /simple/ HTTP/1.1\n\n", b"HTTP/1.1 200 OK\r\n\r\n", b"{}"
]
TEXTS = [
    b"", b"{}", b"[]", b"null", b"1", b'"do"', b'{"do":"claim"}', b'{"do":"claim","name":1}',
    b'{"do":"claim","name":"egg","name":"egg"}', b'{"do":"claim","name":"egg","at":1}',
    b'{"do":"claim","name":"egg","token":"office"}', b'{"do":"standing","name":"frob"}', b'{"do":"dance"}',
    b"[" * 200 + b"]" * 200, b'{"do":"claim","name":"\\ud800"}', b'{"do":"claim","name":"\xff"}',
    b"\xef\xbb\xbf" + BODY, BODY + b"x",
    BODY.decode().encode("utf-16"), b'{"do":"set_quota","name":"frob","quota":1e999}',
    b'{"do":"set_quota","name":"frob","quota":18446744073709551616}',
    b'{"do":"upload","file":"frob-3.tar.gz","sha256":"","hex":"abc","requires_python":""}', b" " * 65_000 + BODY,
    b'{"do":"claim","name":"' + b"e" * 60_000 + b'"}'
]


def with_first_line(message, random):
    """Another method, target or version."""
    line, end, rest = message.partition(b"\r\n")
    words = line.split(b" ")
    place = random.randrange(min(3, len(words)))
    words[place] = random.choice((METHODS, TARGETS, VERSIONS)[place])
    return b" ".join(words) + end + rest


def with_lines(message, random):
    """More lines in the head, one or about as many as it may have."""
    head, end, body = message.partition(b"\r\n\r\n")
    many = [b"X-Many-%d: x" % number for number in range(random.randrange(58, 70))]
    lines = many if random.random() < 0.2 else [random.choice(LINES)]
    return b"\r\n".join([head, *lines]) + end + body


def with_length(message, random):
    """Another length, in the place of the one it has, or beside it."""
    head, end, body = message.partition(b"\r\n\r\n")
    lines = [line for line in head.split(b"\r\n") if not line.startswith(b"Content-Length") or random.random() < 0.2]
    return b"\r\n".join([*lines, b"Content-Length: " + random.choice(LENGTHS)]) + end + body


def with_bytes(message, random):
    """Some bytes that are others, too many, or missing."""
    made = bytearray(message)
    for _ in range(random.choice((1, 1, 2, 5))):
        at = random.randrange(len(made) + 1)
        change = random.randrange(4)
        if change == 0:
            made[at:at + 1] = random.randbytes(1)
        elif change == 1:
            made[at:at] = random.choice(
                (b"\r", b"\n", b"\x00", b" ", b":", b"\r\n", b"\r\n\r\n", b"%", random.randbytes(3)))
        elif change == 2:
            del made[at:at + random.randrange(1, 5)]
        else:
            made[at:at] = made[max(0, at - 20):at]
    return bytes(made)


def with_text(_, random):
    """A POST with another text, of the length that it tells or of about that."""
    text = random.choice(TEXTS)
    return post(text, max(0, len(text) + random.choice((0, 0, 0, 0, -1, 1))))


def with_more(message, random):
    """A second message behind the first."""
    return message + random.choice(WELL_FORMED)


MUTATIONS = (with_first_line, with_lines, with_length, with_bytes, with_bytes, with_text, with_more)


def odd_message(random):
    """A message made at random."""
    if random.random() < 0.05:
        return random.choice(STRANGE)
    message = random.choice(WELL_FORMED)
    for _ in range(random.choice((1, 1, 1, 2, 3))):
        message = random.choice(MUTATIONS)(message, random)
    return message


def cut_messages_of(message):
    """A message, cut at each of its places."""
    return [message[:at] for at in range(len(message))]
