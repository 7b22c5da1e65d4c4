"""Lines and messages that ask nothing, of each kind, and some that are odd and right."""
import json

from support.model.pages import JSON_1
from .texts import Turns, head, header, post

ASKS = b'{"do":"standing","name":"frob"}'


def with_name(value):
    """A standing whose key `name` stands twice, of which the last counts."""
    return b'{"do":"standing","name":' + value + b',"name":"frob"}'


LINES = Turns(
    b"", b" ", b"{}", b"[]", b"null", b"1", b'"do"', b'{"do":"claim"}', b'{"do":"dance"}', b'{"do":1,"name":"frob"}',
    b'{"do":"standing","name":1}', b'{"do":"standing","name":"frob","at":1}', ASKS[:-1], ASKS + b"}",
    b"\xef\xbb\xbf" + ASKS,
    b'{"do":"standing","name":"\xff"}', b'{"do":"standing","name":"\\ud800"}',
    b'{"do":"standing","name":"\\ud83d\\ude00"}',
    b'{"do":"standing","name":"frob",}', b"{'do':'standing','name':'frob'}", b'{"do":"standing","name":"a\tb"}',
    b' {"do" : "standing" , "name" : "fr\\u006fb" } \r', b'{"do":"claim","do":"standing","name":"frob"}',
    b'{"do":"standing","\\udc00":1,"name":"frob"}', with_name(b"1"), with_name(b'"\\ud800"'), with_name(b"NaN"),
    with_name(b"1e308"), with_name(b"1e309"), with_name(b"-1e309"), with_name(b"1" * 309), with_name(b"1" * 310),
    with_name(b"[" * 126 + b"]" * 126), with_name(b"[" * 127 + b"]" * 127),
    with_name(b'{"":' * 127 + b"1" + b"}" * 127),
    ASKS.ljust(65_536), ASKS.ljust(65_537), b"x" * 70_000)


def odd_line(random, line):
    """A line that asks nothing, or that asks the same in another way."""
    if random.random() < 0.5:
        return LINES.drawn(random)
    made = json.loads(line)
    key = random.choice(sorted(made))
    change = random.randrange(7)
    if change == 0:
        del made[key]
    elif change == 1:
        made["more"] = 1
    elif change == 2:
        made[key] = random.choice((None, 1.5, -1, True, 2 ** 64, [], {}, "word", 1e2, 7))
    elif change == 3:
        return line[:random.randrange(len(line))]
    elif change == 4:
        return json.dumps(made, ensure_ascii=False, indent=1, sort_keys=True).replace("\n", "\r").encode()
    elif change == 5 and "hex" in made:
        made["hex"] = random.choice((made["hex"] + "0", made["hex"] + "0g", made["hex"].upper(), "0x00"))
    elif change == 6 and "at" in made:
        number = random.choice((b"-0", b"01", b"1.0", b"1e2", b"+1", b""))
        return line.replace(b'"at": %d' % made["at"], b'"at": ' + number)
    return json.dumps(made).encode()


TOKEN = b"X-Index-Token: office"
LOOK = b"GET /simple/ HTTP/1.1\r\n"
# as many headers as a head may have, and one more
MOST, TOO_MANY = b"X-Many: 1\r\n" * 64 + b"\r\n", b"X-Many: 1\r\n" * 65 + b"\r\n"
HEAD_LOOK = LOOK.replace(b"GET", b"HEAD")
# so many bytes does a head of LOOK have beside the value of one header `X-Long: `
REST = len(LOOK + b"X-Long: \r\n\r\n")
HEADS = Turns(
    b"", LOOK, LOOK + b"no colon\r\n\r\n", LOOK + b": empty\r\n\r\n", LOOK + b"A B: 1\r\n\r\n",
    LOOK + b"A: \x01\r\n\r\n",
    LOOK + b"A: \xff\r\n\r\n", LOOK + b"A: 1\r\n folded\r\n\r\n", b"GET /simple/\r\n\r\n",
    b"GET /simple/ HTTP/3.0\r\n\r\n",
    b"GET  /simple/ HTTP/1.1\r\n\r\n", b"G(T /simple/ HTTP/1.1\r\n\r\n", b"GET /simple/\xff HTTP/1.1\r\n\r\n",
    b"GET /simple/\xc3\xa9/ HTTP/1.1\r\n\r\n", b"GET /simple/ HTTP/1.0\r\n\r\n",
    b"\r\n\nGET /simple/ HTTP/1.1\nA: 1\n\n",
    LOOK + MOST, LOOK + TOO_MANY, HEAD_LOOK + MOST, HEAD_LOOK + TOO_MANY, HEAD_LOOK, b"HEAD /simple/\r\n\r\n",
    b"\r\n" + HEAD_LOOK + MOST, b"\r\n" + HEAD_LOOK + TOO_MANY, b"HEAD\t/simple/ HTTP/1.1\r\n\r\n",
    LOOK + b"X-Long: " + b"v" * (16_384 - REST) + b"\r\n\r\n",
    LOOK + b"X-Long: " + b"v" * (16_385 - REST) + b"\r\n\r\n",
    LOOK + b"ACCEPT:\t" + JSON_1.encode() + b" \t\r\n\r\n")
ROUTES = Turns(*(head(*it.split()) for it in (
    "GET /", "GET /simples/", "GET /requests/", "GET /files/frob/", "GET /files/spam/frob-1.0.tar.gz", "GET /names/",
    "GET /simple/frob/x", "GET /names/frob/", "GET /simple//", "GET /files/FROB/frob-1.0.tar.gz",
    "GET /files/frob/frob-1.0.zip",
    "POST /simple/", "GET /requests", "DELETE /names/frob", "PUT /simple/frob/", "POST /files/frob/frob-1.0.tar.gz",
    "OPTIONS /requests", "PATCH /simple", "get /simple/", "DELETE /simple/Frob", "HEAD /requests", "GET /names/fr%6fb",
    "GET /simple/fr%6Fb/", "GET /simple/frob%2F/", "GET /simple/%ff/", "GET /names/fr%2ob", "GET /names/%",
    "HEAD /names/-",
    "GET /simple/-x", "GET /%73imple/", "GET simple/", "GET *", "GET http://frob/simple/", "GET /simple/#a")))
OF_A_PUT, OF_A_POST = ("PUT", "/files/frob/frob-1.0.tar.gz"), ("POST", "/requests")
LENGTHS = Turns(
    (OF_A_PUT, "16777216"), (OF_A_PUT, "16777217"), (OF_A_POST, "65536"), (OF_A_POST, "65537"),
    *((request, length) for request in (OF_A_PUT, OF_A_POST)
      for length in ("-1", "3 3", "", "9" * 18, "1" * 19, "0" * 17 + "3", "4", "2")))


def odd_message(random, message):
    """A message that asks nothing, of each kind; at times one that is odd and right."""
    change = random.randrange(7)
    if change == 0:
        return HEADS.drawn(random)
    if change == 1:
        return ROUTES.drawn(random)
    if change in (2, 3):
        request, length = LENGTHS.drawn(random)
        more = random.choice(((), (), (), (), (b"transfer-encoding: chunked",), (b"CONTENT-LENGTH: 3",)))
        return head(*request, TOKEN, header("Content-Length", length), *more) + b"abc"
    if change == 4:
        return head(*random.choice((OF_A_PUT, OF_A_POST)), TOKEN)
    if change == 5:
        return post(LINES.drawn(random)[:65_536], random.choice(([], [TOKEN], [TOKEN, b"x-index-token: other"])))
    return message.replace(b"\r\n", b"\r\nX-Requires-Python: \xff\xfe\r\n", 1)
