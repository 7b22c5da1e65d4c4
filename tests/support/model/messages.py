"""How the index is asked over HTTP, and what it replies (docs/reference/HTTP.md)."""
import re
from urllib.parse import unquote_to_bytes

from . import formats, pages
from .names import read_file_name, read_name

MOST_HEAD = 16_384
MOST_HEADERS = 64
MOST_BODY = {"PUT": 16_777_216, "POST": 65_536}
TOKEN = r"[!#$%&'*+.^_`|~0-9A-Za-z-]+"
TARGET = "[^\x00-\x20\x7f\ud800-\udfff]+"
VALUE = "[^\x00-\x08\x0a-\x1f\x7f]*"
JSON = "application/json"
METHODS = {"root": "GET, HEAD", "project": "GET, HEAD", "file": "DELETE, GET, HEAD, PUT", "name": "GET, HEAD",
           "requests": "POST"}
ROUTES = ("/simple/([^/]+)/?", "project"), ("/names/([^/]+)", "name"), ("/files/([^/]+)/([^/]+)", "file")
PHRASES = {
    200: "OK", 201: "Created", 301: "Moved Permanently", 400: "Bad Request", 401: "Unauthorized", 403: "Forbidden",
    404: "Not Found", 405: "Method Not Allowed", 406: "Not Acceptable", 409: "Conflict", 411: "Length Required",
    413: "Payload Too Large", 422: "Unprocessable Entity"}
STATUS = {
    "BadHead": 400, "BadLength": 400, "ShortBody": 400, "BadBody": 400, "NoRoute": 404, "BadMethod": 405,
    "NotAcceptable": 406, "NoLength": 411, "BodyTooLarge": 413,
    **dict.fromkeys((1, 4, 5, 6, 7, 8, 9, 12), 400), 2: 401, **dict.fromkeys((3, 16, 18, 25, 26), 403),
    **dict.fromkeys((13, 17, 22, 23), 404), **dict.fromkeys((14, 15, 19, 20, 21, 24, 27, *range(28, 36)), 409),
    10: 413, 11: 422}


class Nothing(Exception):
    """The message asks nothing, or the question is refused: the name or the number of that, and the methods for 405."""

    def __init__(self, name, allow=None):
        super().__init__(name)
        self.name, self.allow = name, allow


def reply(tables, at, message):
    """The reply to all bytes that a client sends before it ends its side."""
    method = method_by_start(message)
    try:
        method, target, headers, rest = read_head(message)
        return reply_to_request(tables, at, method, target, headers, rest)
    except Nothing as end:
        told = formats.refused(end.name) if isinstance(end.name, int) else formats.message(end.name)
        more = [("Allow", end.allow)] if end.allow else []
        return written(method, STATUS[end.name], JSON, more, formats.answer_text(told))


def method_by_start(message):
    """What the method of a head is that can't be read, as far as a reply depends on it."""
    return "HEAD" if message.startswith(b"HEAD ") else ""


def read_head(message):
    """The method, the target, the headers by their names in lower case, and what stands behind the head."""
    found = re.match(rb"(?:\r?\n)*(.*?)\r?\n\r?\n", message[:MOST_HEAD], re.S)
    if not found:
        raise Nothing("BadHead")
    first_line, *lines = re.split("\r?\n", found[1].decode("utf-8", "surrogateescape"))
    words = re.fullmatch(f"({TOKEN}) ({TARGET}) HTTP/1\\.[01]", first_line)
    headers = [re.fullmatch(f"({TOKEN}):[ \t]*({VALUE}?)[ \t]*", line) for line in lines]
    if not words or not all(headers) or len(headers) > MOST_HEADERS:
        raise Nothing("BadHead")
    return words[1], words[2], [(found[1].lower(), found[2]) for found in headers], message[found.end():]


def values(headers, name):
    return [value for key, value in headers if key == name]


def first(headers, name):
    """The first value of a header. One that is missing counts as empty."""
    return next(iter(values(headers, name)), "")


def decoded(piece):
    return unquote_to_bytes(piece).decode("utf-8", "surrogateescape")


def route_of(path):
    """Which row of the routes a path has, with its pieces decoded."""
    if path in ("/simple/", "/simple"):
        return "root", ()
    if path == "/requests":
        return "requests", ()
    for pattern, route in ROUTES:
        found = re.fullmatch(pattern, path)
        if found:
            pieces = tuple(map(decoded, found.groups()))
            if route == "file" and is_file_of_other(*pieces):
                break
            return route, pieces
    raise Nothing("NoRoute")


def is_file_of_other(name, file):
    """Whether a file name decides another project than the one in its path."""
    decides = read_file_name(file)
    return decides is not None and decides[0] != name


def reply_to_request(tables, at, method, target, headers, rest):
    path = target.partition("?")[0]
    route, pieces = route_of(path)
    if method not in METHODS[route].split(", "):
        raise Nothing("BadMethod", METHODS[route])
    token = first(headers, "x-index-token")
    if method in MOST_BODY:
        body = read_body(method, headers, rest)
    if route == "root" or route == "project":
        return page(tables, method, path, pieces, headers)
    if route == "name":
        return answered(method, formats.made_of(tables, {"do": "standing", "name": pieces[0]}, at, token))
    if route == "requests":
        return answered(method, posted(tables, at, token, body))
    if method == "PUT":
        asked = {"do": "upload", "file": pieces[1], "sha256": first(headers, "x-index-sha256"), "body": body,
                 "requires_python": first(headers, "x-requires-python")}
        return answered(method, formats.made_of(tables, asked, at, token))
    if method == "DELETE":
        return answered(method, formats.made_of(tables, {"do": "delete", "file": pieces[1]}, at, token))
    return file_reply(tables, method, pieces[1])


def read_body(method, headers, rest):
    """The body of a PUT or a POST."""
    lengths = values(headers, "content-length")
    if values(headers, "transfer-encoding") or len(lengths) > 1:
        raise Nothing("BadLength")
    if not lengths:
        raise Nothing("NoLength")
    if not re.fullmatch("[0-9]{1,18}", lengths[0]):
        raise Nothing("BadLength")
    if int(lengths[0]) > MOST_BODY[method]:
        raise Nothing("BodyTooLarge")
    if len(rest) < int(lengths[0]):
        raise Nothing("ShortBody")
    return rest[:int(lengths[0])]


def posted(tables, at, token, body):
    try:
        asked = formats.read_request(body, set())
        if asked["do"] == "standing":
            raise formats.Malformed("a standing is asked for by its path")
    except formats.Malformed:
        raise Nothing("BadBody") from None
    return formats.made_of(tables, asked, at, token)


def page(tables, method, path, pieces, headers):
    """The list of the projects or the page of one; or a redirect to its address, whether the name is held or not."""
    name = read_name(pieces[0]) if pieces else None
    if pieces and name is None:
        raise Nothing(17)
    if not path.endswith("/") or pieces and pieces[0] != name:
        return written(method, 301, None, [("Location", f"/simple/{name}/" if pieces else "/simple/")], b"")
    if pieces and name not in tables.held:
        raise Nothing(17)
    kind = pages.chosen_type(values(headers, "accept"))
    if kind is None:
        raise Nothing("NotAcceptable")
    text = pages.project_page(tables, name, kind) if pieces else pages.root_page(tables, kind)
    return written(method, 200, kind, [], text.encode())


def file_reply(tables, method, name):
    file = tables.files.get(name)
    if file is None or file.body is None:
        raise Nothing(22)
    return written(method, 200, "application/octet-stream", [], file.body)


def answered(method, answer):
    """The reply with an answer: the status of its refusal, or 201 for an upload by PUT that was accepted, or 200."""
    status = STATUS[answer["code"]] if answer.get("answer") == "refused" else 200
    if method == "PUT" and answer == {"answer": "accepted"}:
        status = 201
    more = [("WWW-Authenticate", "Index-Token")] if status == 401 else []
    return written(method, status, JSON, more, formats.answer_text(answer))


def written(method, status, kind, more, body):
    """The bytes of a reply. That to HEAD has the length of the body, and not the body."""
    headers = [("Content-Type", kind)] if kind else []
    headers += [*more, ("Content-Length", len(body)), ("Connection", "close")]
    head = f"HTTP/1.1 {status} {PHRASES[status]}\r\n" + "".join(f"{name}: {value}\r\n" for name, value in headers)
    return head.encode() + b"\r\n" + (b"" if method == "HEAD" else body)
