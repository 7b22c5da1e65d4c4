"""How requests are written as lines and as messages, and looks at pages, files and standings."""
import json
import weakref
from urllib.parse import quote

from support.model.names import bytes_of, read_file_name
from support.model.pages import HTML, HTML_1, JSON_1

LATEST_HTML, LATEST_JSON = HTML_1.replace("v1", "latest"), JSON_1.replace("v1", "latest")


class Turns:
    """Values that are drawn at random, each once before any comes again: for each source of chance anew, so that what
    it draws does not depend on what others drew."""

    def __init__(self, *values):
        self.values, self.left = values, weakref.WeakKeyDictionary()

    def drawn(self, random):
        self.left[random] = self.left.get(random) or random.sample(self.values, len(self.values))
        return self.left[random].pop()


# values of `Accept`; None is no such header
ACCEPTS = Turns(
    None, None, None, "*/*", HTML, HTML_1, JSON_1, JSON_1, LATEST_HTML, LATEST_JSON.upper(), "TEXT/HTML", "text/*",
    f"{JSON_1}, {HTML_1}; q=0.1, {HTML}; q=0.01", f"application/*;q=0.5, {LATEST_JSON};q=0.4", "text/html;q=0, */*",
    "application/*", "*/*;q=0", "image/png", "image/png, */*;q=0.001", "text/html;q=0.5;q=0.9, application/*;q=0.7",
    "text/html ; Q=0.1,application/* ;q=0.100", f"{JSON_1};q=0.0, {HTML_1};q=1.000", f"{JSON_1};q=1.001", "", ",",
    ";q=1",
    f"{JSON_1};q=0.1234, text/html;q=.5", "text/html;level=1", f"text/html;level=1;q=0.2, {JSON_1};q=0.3", "html",
    "a/b/c",
    "text/html;q=0", "text/html;q=0.2, text/html;q=0.8, application/*;q=0.5", "text/plain;q=0.9, */*;q=0",
    "text/html;q=1.5", "text/html;q=1.", "text/html;q=0.,*/*;q=0.1")


def line_of(at, token, asked):
    """The line of a request."""
    made = {key: value for key, value in asked.items() if key != "body"}
    if "body" in asked:
        made["hex"] = asked["body"].hex()
    return json.dumps(made if asked["do"] == "standing" else {"at": at, "token": token, **made}).encode()


def head(method, target, *lines):
    return b"\r\n".join([b" ".join([method.encode(), bytes_of(target), b"HTTP/1.1"]), *lines, b"", b""])


def header(name, value):
    return name.encode() + b": " + bytes_of(value)


def message_of(random, token, asked):
    """The message of a request: a file and a standing by their own paths, or by a POST; all else by a POST."""
    do, lines = asked["do"], [] if token is None else [header("X-Index-Token", token)]
    if do == "standing" and random.random() < 0.8:
        return head(random.choice(("GET", "HEAD")), "/names/" + quote(asked["name"], safe=""), *lines)
    if do in ("upload", "delete") and random.random() < 0.8:
        return of_file(random, lines, asked)
    body = json.loads(line_of(0, "", asked))
    return post({key: value for key, value in body.items() if key not in ("at", "token")}, lines)


def of_file(random, lines, asked):
    """A PUT or a DELETE of a file, seldom below another name."""
    decides = read_file_name(asked["file"])
    name = decides[0] if decides and random.random() < 0.95 else "spam"
    target = f"/files/{name}/{quote(asked['file'], safe='+!')}"
    if asked["do"] == "delete":
        return head("DELETE", target, *lines)
    lines += [header("X-Index-SHA256", asked["sha256"]), header("Content-Length", str(len(asked["body"])))]
    if asked["requires_python"] or random.random() < 0.5:
        lines.append(header("x-requires-python", asked["requires_python"]))
    return head("PUT", target, *lines) + asked["body"]


def post(body, lines=()):
    text = body if isinstance(body, bytes) else json.dumps(body).encode()
    return head("POST", "/requests", *lines, header("Content-Length", str(len(text)))) + text


def look(random, chooser):
    """A message that asks for a page, a file or a standing, in some spelling, with some `Accept`."""
    name = chooser.name(lambda it: chooser.is_held(it) or random.random() < 0.3)
    spelled = quote(chooser.written(name) if random.random() < 0.2 else name, safe="")
    files = sorted(file for file, it in chooser.tables.files.items() if it.project == name)
    file = chooser.file(lambda *_: True, name) if not files or random.random() < 0.05 else random.choice(files)
    target = random.choice((
        "/simple/", f"/simple/{spelled}/", f"/simple/{spelled}/", f"/simple/{spelled}/", f"/simple/{spelled}",
        "/simple",
        f"/names/{spelled}", f"/files/{spelled}/{quote(file, safe='+!')}"))
    target += random.choice(("", "", "", "", "?a=/b", "?"))
    accepts = [ACCEPTS.drawn(random) for _ in range(random.choice((1, 1, 1, 2, 4)))]
    lines = [header("Accept", accept) for accept in accepts if accept is not None]
    return head(random.choice(("GET", "GET", "GET", "HEAD")), target, *lines)
