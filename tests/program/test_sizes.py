"""Many rows, large bodies and long lines are answered as few and short ones are.

`--rounds N` is how many names, and how many files of one name, the pages of many rows have."""
import json
import sqlite3
from contextlib import closing

import pytest
from support.model.pages import HTML, JSON_1, Listed, page_of_files, page_of_names
from support.serving import ACCEPTED, ALREADY, Index, reply_to, sha256
from support.subcommands import End
from support.volumes import stored
from support.workload import line_of

BAD_BODY, FREE = b'{"answer":"message","name":"BadBody"}', b'{"name":"frob","state":"free"}'
ABC, MANY, OWNERS = sha256(b"abc"), 300, 1_100
LONGEST_LINE, LONGEST_POST, LONGEST_FILE = 65_536, 65_536, 16_777_216
# of many rows, and of a program that was not proved and is slower
ROWS, ROWS_OF_AN_UNPROVED_PROGRAM = 70_000, 7_000
# so many names of this length, the longest, make root pages of above 8 MiB
LENGTH, LONG_PAGES = 128, {HTML: 29_500, JSON_1: 60_000}
# lines of so many bytes are given to one `apply`
MUCH = 17 << 20
QUOTA = 1 << 30
pytestmark = pytest.mark.timeout(900)


@pytest.fixture
def is_sound(end):
    """Whether no charge of an index is wrong."""
    return lambda path: end("check", "--db", path, patience=300) == End(0, b"0\n")


# lines

def asked(token, do, **more):
    return line_of(token, do=do, **more)[:-1]


def standing(charge, owners):
    shown = {"case": None, "charge": charge, "name": "frob", "owners": sorted(owners), "quota": QUOTA, "shown": "frob",
             "state": "held"}
    return b'{"do":"standing","name":"frob"}', as_text(shown)


def as_text(value):
    return json.dumps(value, separators=(",", ":")).encode()


def upload(number):
    return asked("office", "upload", file=f"frob-{number}.tar.gz", sha256=ABC, hex=b"abc".hex(), requires_python="")


def many_of_each(owners=MANY):
    """Lines and their answers: of owners, files, yanks and names so many come, are there already, and go again."""
    numbers, users = range(MANY), [f"u{number}" for number in range(owners)]
    comes = [[asked("office", "add_owner", name="frob", user=user) for user in users],
             [upload(number) for number in numbers],
             [asked("office", "yank", name="frob", release=f"{number}", reason="") for number in numbers],
             [asked("office", "claim", name=f"n{number}") for number in numbers]]
    goes = [[asked("office", "remove_owner", name="frob", user=user) for user in users],
            [asked("office", "delete", file=f"frob-{number}.tar.gz") for number in numbers], [],
            [asked("office", "relinquish", name=f"n{number}") for number in numbers]]
    standings = [standing(0, ["office", *users]), standing(3 * MANY, ["office", *users])]
    lines = [(asked("office", "add_user", user=user, office=False, token_sha256=sha256(user.encode())), ACCEPTED)
             for user in users]
    lines += [(asked("office", "claim", name="frob"), ACCEPTED)]
    for many, behind in zip(comes, (standings[0], standings[1], standings[1], standings[1])):
        lines += [(line, ACCEPTED) for line in many] + [(line, ALREADY) for line in many] + [behind]
    left = [standing(charge, ["office"]) for charge in (3 * MANY, 0, 0, 0)]
    for many, behind in zip(goes, left):
        lines += [(line, ACCEPTED) for line in many] + [behind]
    return lines


def padded(line, length):
    """The same request with spaces, of so many bytes."""
    return line + b" " * (length - len(line))


def long_lines():
    """Lines of as many bytes as they may have, one less and one more, and between them what tells whether they were
    applied."""
    claim, more = asked("office", "claim", name="frob"), b'{"do":"standing","name":"frob"}'
    held = standing(0, ["office"])
    return [(more, FREE), (padded(claim, LONGEST_LINE + 1), BAD_BODY), (b"x" * (3 * LONGEST_LINE), BAD_BODY),
            (more, FREE), (padded(claim, LONGEST_LINE), ACCEPTED), held, (padded(claim, LONGEST_LINE - 1), ALREADY),
            (padded(claim, LONGEST_LINE), ALREADY), (padded(claim, LONGEST_LINE + 1), BAD_BODY)]


def many_bytes():
    """Lines of more bytes together than any of them has, and a last one that is to be applied as well."""
    line = padded(b'{"do":"standing","name":"frob"}', LONGEST_LINE)
    return [*[(line, FREE)] * (MUCH // len(line) + 1), (asked("office", "claim", name="frob"), ACCEPTED),
            standing(0, ["office"])]


@pytest.fixture
def are_answered(end, looked):
    """These lines have these answers, and the last line ends so."""
    def answered(lines, *words, last=b"\n"):
        given = b"\n".join(line for line, _ in lines) + last
        ended = end("apply", *words, given=given, patience=600)
        came = ended.output.splitlines()
        for (line, answer), seen in zip(lines, came):
            looked(seen == answer, line[:100], seen, answer)
        looked(len(came) == len(lines), len(came), len(lines))
        looked((ended.status, ended.error) == (0, b""), ended.status, ended.error)
        looked(ended.output == b"".join(answer + b"\n" for _, answer in lines))

    return answered


LINES = {"three-hundred-of-each": many_of_each, "long-lines": long_lines, "many-bytes": many_bytes}


@pytest.mark.parametrize("which", LINES)
def test_lines_in_memory(are_answered, which):
    are_answered(LINES[which]())


@pytest.mark.parametrize("which", LINES)
def test_lines_on_a_database(are_answered, is_sound, index_file, looked, which):
    are_answered(LINES[which](), "--db", index_file)
    looked(is_sound(index_file), "check")


@pytest.mark.slow
def test_1100_owners(are_answered):
    are_answered(many_of_each(OWNERS))


def test_a_long_line_without_an_end(are_answered, is_sound, index_file, looked):
    are_answered(long_lines(), last=b"")
    are_answered(long_lines(), "--db", index_file, last=b"")
    looked(is_sound(index_file), "check")


# bodies

def replied(index, method, path, body):
    """The reply to a body, which is not read if it is too large."""
    head = (f"{method} {path} HTTP/1.1\r\nX-Index-Token: office\r\nX-Index-SHA256: {sha256(body)}\r\n"
            f"Content-Length: {len(body)}\r\n\r\n")
    return reply_to(index.port, head.encode() + body)


def is_too_large(reply):
    """A client that sends a body which is not read may be reset before it sees the reply."""
    return not reply or reply.startswith(b"HTTP/1.1 413 ")


def test_a_request_has_as_many_bytes_as_it_may(index, looked):
    reply = replied(index, "POST", "/requests", padded(b'{"do":"claim","name":"frob"}', LONGEST_POST))
    looked(reply.startswith(b"HTTP/1.1 200 "), reply[:300])
    reply = replied(index, "POST", "/requests", padded(b'{"do":"claim","name":"more"}', LONGEST_POST + 1))
    looked(is_too_large(reply), reply[:300])
    looked(index.ask("GET", "/simple/more/")[0] == 404, "what was too large is not there")


@pytest.mark.slow
def test_a_file_has_as_many_bytes_as_it_may(program, index_file, is_sound, chance, looked):
    with Index(program, path=index_file) as index:
        index.claim("frob")
        bodies = [chance.randbytes(length) for length in (LONGEST_FILE - 1, LONGEST_FILE, LONGEST_FILE + 1)]
        for number, body in enumerate(bodies):
            reply = replied(index, "PUT", f"/files/frob/frob-{number}.tar.gz", body)
            looked(reply.startswith(b"HTTP/1.1 201 ") if number < 2 else is_too_large(reply), len(body), reply[:300])
        for number in range(2):
            looked(index.ask("GET", f"/files/frob/frob-{number}.tar.gz")[2] == bodies[number], "it has its bytes")
        looked(index.ask("GET", "/files/frob/frob-2.tar.gz")[0] == 404, "what was too large is not there")
        others = index.errors().replace(b"index: connection: WriteFault\n", b"")
        looked(not others, "nothing else on standard error", others)
    looked(is_sound(index_file), "check")


# many rows

def fill(path, names, files):
    """Adds held names, and the name `frob` with files that are the bytes `abc`."""
    bodies = stored(path, [b"abc"] * len(files))
    with closing(sqlite3.connect(path)) as database:
        held = [("frob", 1, "frob", 1 << 40, 3 * len(files), len(files), 11),
                *((name, 1, name, QUOTA, 0, 0, None) for name in names)]
        database.executemany("INSERT INTO names VALUES (?, ?, ?, ?, ?, ?, ?)", held)
        database.executemany("INSERT INTO owners VALUES (?, 'office')", [(row[0],) for row in held])
        rows = [(file, "frob", file[5:-7], bytes.fromhex(ABC), 3, "", 1) for file in files]
        database.executemany("INSERT INTO files VALUES (?, ?, ?, ?, ?, ?, ?)", rows)
        database.executemany("INSERT INTO blobs VALUES (?, ?)", zip(files, bodies))
        database.commit()
    return path


def root_of(names, kind):
    """The page of these names and of `frob`."""
    return page_of_names([(name, name) for name in sorted(["frob", *names])], kind).encode()


def page_of(files, kind):
    """The page of `frob` with these files."""
    return page_of_files("frob", [Listed(file, file[5:-7], ABC, 3) for file in sorted(files)], kind).encode()


def page_differs(index, path, accept, wanted):
    """How a page is another than this, or None."""
    status, headers, body = index.ask("GET", path, Accept=accept)
    if (status, headers["Content-Length"], body) == (200, str(len(wanted)), wanted):
        return None
    return status, headers.items(), len(body), len(wanted), body[:200], body[-200:]


def report_of(names, files):
    rows = [f"{'frob':<24} {'held':<10} {files:>12} {3 * files:>14} {1 << 40:>14}"]
    rows += [f"{name:<24} {'held':<10} {0:>12} {0:>14} {QUOTA:>14}" for name in names]
    return [row.split() for row in sorted(rows)]


@pytest.mark.slow
def test_many_rows_have_their_pages_and_report(program, is_proved, end, index_file, is_sound, looked, pytestconfig):
    """Those that Python makes of the same rows."""
    count = pytestconfig.option.rounds or (ROWS if is_proved else ROWS_OF_AN_UNPROVED_PROGRAM)
    names, files = [f"n{number}" for number in range(count)], [f"frob-{number}.tar.gz" for number in range(count)]
    fill(index_file, names, files)
    looked(is_sound(index_file), "check")
    report = end("report", "--db", index_file, patience=300)
    looked([line.split() for line in report.output.decode().splitlines()] == report_of(names, count),
           report.status, report.error, report.output[:300])
    with Index(program, path=index_file, patience=300) as index:
        for kind in (JSON_1, HTML):
            for path, wanted in (("/simple/", root_of(names, kind)), ("/simple/frob/", page_of(files, kind))):
                differs = page_differs(index, path, kind, wanted)
                looked(not differs, path, kind, differs)


@pytest.mark.slow
@pytest.mark.parametrize("kind", LONG_PAGES, ids=("HTML", "JSON"))
def test_a_root_page_of_above_eight_mebibytes(program, is_proved, index_file, looked, kind):
    if not is_proved:
        pytest.skip("a program that was not proved takes minutes to open so many rows")
    names = [f"{number:0>{LENGTH}}" for number in range(LONG_PAGES[kind])]
    wanted = root_of(names, kind)
    looked(len(wanted) > 8 << 20, "it is long", len(wanted))
    fill(index_file, names, [])
    for keep in (None, 0):
        with Index(program, path=index_file, patience=600, keep=keep) as index:
            for _ in range(2):
                differs = page_differs(index, "/simple/", kind, wanted)
                looked(not differs, keep, differs)
