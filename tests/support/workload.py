"""Some thirty requests, of every kind, as lines of `apply` and as messages of `serve`."""
import json

from support.serving import ACCEPTED, ALREADY, sha256

STORE = b'{"answer":"fault","name":"Store"}'
# longer than a page of the database, and with no two pages alike
LARGE = bytes(at * at % 251 for at in range(9_000))
WHEEL = "spam-2.0-py3-none-any.whl"
LATER = 90_000_000


def user(token, name, digest_of):
    return token, {"do": "add_user", "user": name, "office": False, "token_sha256": sha256(digest_of)}


def upload(token, file, body, requires=""):
    return token, {"do": "upload", "file": file, "sha256": sha256(body), "hex": body.hex(), "requires_python": requires}


def of_name(token, do, name, **more):
    return token, {"do": do, "name": name, **more}


def of_file(token, do, file):
    return token, {"do": do, "file": file}


def case(token, name, kind):
    return of_name(token, "open_case", name, kind=kind, contact="mail to all of them", work="a fork",
                   why="nobody answers")


def attempt(means):
    return of_name("office", "record_attempt", "frob", means=means, sent=True)


def standing(name):
    return None, {"do": "standing", "name": name}


# the caller's token, and what is asked
REQUESTS = [
    user("office", "ann", b"abc"),
    user("office", "bob", b"hello"),
    of_name("abc", "claim", "Frob"),
    of_name("office", "set_quota", "frob", quota=100_000),
    upload("abc", "frob-1.0.tar.gz", b"abc", ">=3.8"),
    upload("abc", "frob-1.1.tar.gz", LARGE),
    upload("abc", "frob-1.0.tar.gz", b"abc"),
    of_name("abc", "yank", "frob", release="1.0", reason="broken"),
    of_name("abc", "unyank", "frob", release="1.0"),
    of_name("abc", "yank", "frob", release="1.1", reason=""),
    of_name("abc", "add_owner", "frob", user="bob"),
    of_name("hello", "remove_owner", "frob", user="bob"),
    of_file("abc", "delete", "frob-1.0.tar.gz"),
    upload("abc", "frob-1.0.tar.gz", b"abc"),
    of_file("office", "ban_file", "frob-1.1.tar.gz"),
    of_name("hello", "claim", "spam"),
    upload("hello", WHEEL, bytes(4_096)),
    case("hello", "frob", "reuse"),
    of_name("abc", "answer_case", "frob"),
    case("hello", "frob", "continue"),
    attempt("profile"),
    attempt("author"),
    attempt("pages"),
    of_name("office", "transfer", "frob", quiet=True),
    standing("frob"),
    of_name("abc", "claim", "spam"),
    case("abc", "spam", "reuse"),
    of_name("abc", "close_case", "spam"),
    of_name("office", "prohibit", "spam"),
    of_name("office", "allow", "spam"),
    ("office", {"do": "set_token", "user": "ann", "token_sha256": sha256(b"new")}),
    of_name("new", "claim", "egg"),
    of_name("new", "relinquish", "egg"),
    ("office", {"do": "dance"}),
    standing("spam"),
]


def line_of(token, at=11, **request):
    """The line of `apply` that asks for this with a token, at this moment."""
    return json.dumps({"at": at, "token": token, **request}).encode() + b"\n"


def lines_of(requests, moment=None):
    """The lines that ask for this, each at this moment, or, where none is told, so that a transfer is late enough."""
    made = []
    for number, (token, asked) in enumerate(requests):
        later = moment if moment is not None else number + (LATER if asked["do"] == "transfer" else 0)
        caller = {} if token is None else {"at": later, "token": token}
        made.append(json.dumps({**caller, **asked}).encode() + b"\n")
    return tuple(made)


def project_of(file):
    return file.split("-")[0]


def message_of(request):
    """The message that asks for this: a file by its path, a standing by that of its name, and all else by a POST."""
    token, asked = request
    head, body = {"X-Index-Token": token}, b""
    if asked["do"] == "upload":
        body = bytes.fromhex(asked["hex"])
        first = f"PUT /files/{project_of(asked['file'])}/{asked['file']}"
        head |= {"X-Index-SHA256": asked["sha256"], "X-Requires-Python": asked["requires_python"]}
    elif asked["do"] == "delete":
        first = f"DELETE /files/{project_of(asked['file'])}/{asked['file']}"
    elif asked["do"] == "standing":
        first, head = f"GET /names/{asked['name']}", {}
    else:
        first, body = "POST /requests", json.dumps(asked).encode()
    if body or first.startswith(("PUT", "POST")):
        head["Content-Length"] = len(body)
    lines = [f"{first} HTTP/1.1", "Host: index", *(f"{name}: {value}" for name, value in head.items() if value != "")]
    return "\r\n".join([*lines, "", ""]).encode() + body


def status_of(answer, is_put):
    """The statuses that the reply with this answer may have."""
    if answer == STORE:
        return (500,)
    if answer == ACCEPTED:
        return (201,) if is_put else (200,)
    return (200,) if answer == ALREADY or answer.startswith((b'{"case":', b'{"name":')) else range(400, 500)
