"""Lines in, lines out, and what `report` and `check` print (docs/reference/FORMATS.md)."""
import json
import math
import re

from . import rules

MOST_LINE = 65_536
MOST_LEVELS = 127
MOST_WHOLE = 18_446_744_073_709_551_615

# By the name of a request, its keys beside `do`, `at` and `token`.
KEYS = {
    "add_user": "user office token_sha256", "set_token": "user token_sha256", "set_quota": "name quota",
    "claim": "name", "relinquish": "name", "prohibit": "name", "allow": "name", "close_case": "name",
    "answer_case": "name",
    "add_owner": "name user", "remove_owner": "name user", "upload": "file sha256 hex requires_python",
    "delete": "file", "ban_file": "file", "yank": "name release reason", "unyank": "name release",
    "open_case": "name kind contact work why", "record_attempt": "name means sent", "transfer": "name quiet",
    "standing": "name"}
WORDS = {"kind": ("continue", "reuse"), "means": rules.MEANS}


class Malformed(Exception):
    """The line asks nothing."""


class Number:
    """A number that is not a whole one of 64 bits."""


def whole(text):
    """-0 is a number of floating point, as are the whole numbers that are too great."""
    return int(text) if text.isdigit() and int(text) <= MOST_WHOLE else floating(text)


def floating(text):
    if math.isinf(float(text)):
        raise Malformed("above the greatest number of floating point")
    return Number()


def not_json(text):
    """Python reads NaN and Infinity, which are not JSON."""
    raise Malformed(text)


def levels(value):
    """How deep arrays and objects are nested. An object is a tuple of pairs here."""
    if isinstance(value, tuple):
        return 1 + max([levels(inner) for _, inner in value], default=0)
    if isinstance(value, list):
        return 1 + max([levels(inner) for inner in value], default=0)
    return 0


def texts(value):
    """All texts in a value, keys too."""
    if isinstance(value, str):
        yield value
    if isinstance(value, tuple):
        value = [inner for pair in value for inner in pair]
    if isinstance(value, list):
        for inner in value:
            yield from texts(inner)


def read_json(data):
    """The value of a text, in which an object is a tuple of pairs. Raises Malformed where serde_json reads none."""
    try:
        value = json.loads(data.decode(), object_pairs_hook=tuple, parse_int=whole, parse_float=floating,
                           parse_constant=not_json)
        if levels(value) > MOST_LEVELS:
            raise Malformed("too many levels")
        "".join(texts(value)).encode()
    except (ValueError, RecursionError) as end:
        raise Malformed(str(end)) from end
    return value


def value_is_of_kind(key, value):
    """Whether a value may stand at this key."""
    if key in ("at", "quota"):
        return type(value) is int
    if key in ("office", "sent", "quiet"):
        return type(value) is bool
    if key in WORDS:
        return value in WORDS[key]
    if key == "hex":
        return isinstance(value, str) and bool(re.fullmatch("([0-9A-Fa-f]{2})*", value))
    return isinstance(value, str)


def read_request(data, more_keys):
    """What a text asks for, by its keys. `more_keys` are those of a call beside its row: its moment and its token."""
    value = read_json(data)
    if not isinstance(value, tuple):
        raise Malformed("not an object")
    asked = dict(value)
    do = asked.get("do")
    if not isinstance(do, str) or do not in KEYS:
        raise Malformed("no row has this name")
    keys = {"do", *KEYS[do].split()} | (more_keys if do != "standing" else set())
    if set(asked) != keys or not all(value_is_of_kind(key, asked[key]) for key in keys):
        raise Malformed("a key is missing or too many, or its value is of another kind")
    if "hex" in asked:
        asked["body"] = bytes.fromhex(asked.pop("hex"))
    return asked


def line_answer(tables, line):
    """The line that answers a line, both without line feeds."""
    try:
        if len(line) > MOST_LINE:
            raise Malformed("too long")
        asked = read_request(line, {"at", "token"})
    except Malformed:
        return answer_text(message("BadBody"))
    return answer_text(made_of(tables, asked, asked.get("at"), asked.get("token")))


def made_of(tables, asked, at, token):
    """The answer to a request, as the object that is written: the standing, or what came of the call."""
    if asked["do"] == "standing":
        found = rules.standing(tables, asked["name"])
        return refused(found) if isinstance(found, int) else found
    came = rules.answer(rules.Call(tables, at, token, asked))
    return refused(came) if isinstance(came, int) else {"answer": came}


def refused(number):
    return {"answer": "refused", "code": number, "name": rules.NAME_OF[number]}


def message(name):
    return {"answer": "message", "name": name}


def answer_text(answer):
    """Compact JSON, with keys in byte order."""
    return json.dumps(answer, ensure_ascii=False, separators=(",", ":"), sort_keys=True).encode()


def report(tables):
    """What `report` prints: a line for each held or prohibited name, in columns, in the byte order of the names."""
    lines = []
    for name in sorted({*tables.held, *tables.prohibited}):
        held = tables.held.get(name)
        state, quota = ("held", held.quota) if held else ("prohibited", 0)
        lines.append(f"{name:24} {state:10} {len(tables.undeleted(name)):8} {tables.charge(name):14} {quota:14}\n")
    return "".join(lines).encode()


def check(tables):
    """What `check` prints: the number of names whose charge is not the sum of their undeleted files."""
    return b"0\n"
