"""Calls that fail under `serve`: those of the database's files, and those on connections."""
import re

from support.judge import answers_are_right, kept_lines, seen_by_sqlite
from support.model.pages import JSON_1, Listed, page_of_files, page_of_names
from support.serving import JSON_PAGE, Index, parts_of, reply_to
from support.workload import REQUESTS, STORE, message_of, status_of

MOMENT = 7
LOOKS = ("/simple/", "/simple/frob/", "/files/frob/frob-1.0.tar.gz")


def look(path):
    return f"GET {path} HTTP/1.1\r\nAccept: {JSON_PAGE}\r\n\r\n".encode()


MESSAGES = [message_of(request) for request in REQUESTS] + [look(path) for path in LOOKS]


class Served:
    """What came of a server that was asked for all messages: the replies, its status, and what it said on standard
    error."""

    def __init__(self, program, path, setting):
        self.replies, self.status, self.said = [], 1, b""
        try:
            with Index(program, len(MESSAGES), path, setting=setting, at=MOMENT) as index:
                self.ask(index.port)
                self.status = index.process.wait(timeout=60)
                self.said = index.errors()
            # a connection that it didn't take before it ended was not asked
            while self.status and self.replies and not self.replies[-1]:
                self.replies.pop()
        except SystemExit as end:
            # it doesn't listen, and the reason stands in the text of this, as Python writes bytes
            found = re.search(r"b'(index: .*)'$", str(end))
            self.said = (found[1].replace("\\n", "\n") if found else str(end)).encode()

    def ask(self, port):
        for message in MESSAGES:
            try:
                self.replies.append(reply_to(port, message))
            except ConnectionRefusedError:
                return


def shown(rows):
    """What the three looks give of these rows, with None where there is no such page or file."""
    names = [(name, text) for name, state, text, *_ in rows["names"] if state == 1]
    yanks = {(name, release): reason for name, release, reason in rows["yanks"]}
    files = [Listed(file, release, digest.hex(), size, requires, yanks.get((name, release)))
             for file, name, release, digest, size, requires, live in rows["files"] if name == "frob" and live]
    page = page_of_files("frob", files, JSON_1).encode() if "frob" in dict(names) else None
    return [page_of_names(names, JSON_1).encode(), page, dict(rows["blobs"]).get("frob-1.0.tar.gz")]


class Judged:
    """Holds the replies of one run to what they have to be. A reply that did not come whole has no answer."""

    def __init__(self, runs, name, served):
        self.runs, self.name, self.served = runs, name, served
        parts = [parts_of(reply) for reply in served.replies]
        self.whole = [part is not None and len(part[2]) == int(part[1][b"Content-Length"]) for part in parts]
        self.parts = parts

    def check(self, name, is_well, seen=None):
        self.runs.looked(is_well, name, self.name, seen or (self.served.replies, self.served.said))

    def answers(self, unknown):
        """The answers to the requests. `unknown` is the answer to a request whose reply did not come."""
        return [part[2] if is_whole else unknown for part, is_whole in zip(self.parts[:len(REQUESTS)], self.whole)]

    def statuses_are_right(self):
        pairs = list(zip(MESSAGES, self.parts))[:len(REQUESTS)]
        wrong = [part for message, part in pairs
                 if part and part[0] not in status_of(part[2], message.startswith(b"PUT"))]
        self.check("statuses", not wrong, wrong)

    def looks_are_right(self, lines):
        """Each page and the file is that of the tables, or Store, or a part of a page that the server tells as cut."""
        if len(self.parts) < len(MESSAGES):
            return
        wanted = shown(self.runs.judge.rows(lines))
        for text, part, reply, is_whole in zip(
                wanted, *(found[-len(LOOKS):] for found in (self.parts, self.served.replies, self.whole))):
            is_right = is_whole and (part[2] in (text, STORE) or text is None and part[0] == 404)
            is_begun = not part or (text or b"").startswith(part[2])
            is_cut = not is_whole and b"index: connection: Cut\n" in self.served.said and is_begun
            self.check("a look", is_right or is_cut, (text, reply, self.served.said))


def file_fault(runs, judged, fault, lines):
    """The server goes on, or ends with Store. What was not asked any more was not answered."""
    answers = judged.answers(STORE)
    judged.check("each reply is whole", all(judged.whole[:len(REQUESTS)]))
    judged.check("answers", answers_are_right(runs.judge, lines, answers))
    judged.statuses_are_right()
    said = judged.served.said.replace(b"index: connection: Cut\n", b"")
    status = judged.served.status
    judged.check("its end", (status, said) == (0, b"") or status == 1 and fault.may_be_told(said, runs.path),
                 (status, judged.served.said))
    judged.looks_are_right(kept_lines(lines, answers)[0])
    runs.is_kept(lines, tuple(answers), fault)


def peer_fault(runs, judged, fault, lines):
    """Connections that break off are named on standard error, and all others are served. A request whose reply was
    lost is made."""
    lost = [at for at, is_whole in enumerate(judged.whole) if not is_whole]
    count = len(judged.parts)
    if fault.kind == "accept" and not fault.is_harmless():
        # it ends where no connection can be accepted, or tries again
        ends = count < len(MESSAGES) or bool(lost)
        is_well = (judged.served.status, judged.served.said[:17]) == ((1, b"index: ReadFault\n") if ends else (0, b""))
        made = [at for at in range(min([count, *lost], default=0))][:len(REQUESTS)]
    elif fault.is_harmless():
        is_well, made = not lost and (judged.served.status, judged.served.said) == (0, b""), range(len(REQUESTS))
    elif fault.kind == "recv":
        said = b"index: connection: ReadFault\n" * len(lost)
        is_well = lost and (judged.served.status, judged.served.said) == (0, said)
        made = [at for at in range(len(REQUESTS)) if at not in lost]
    else:
        # what was gathered of a reply may go out by a second send, after the first failed
        said = judged.served.said.splitlines()
        is_named = {*said} == {b"index: connection: WriteFault"}
        is_well = judged.served.status == 0 and len(said) >= max(1, len(lost)) and is_named
        made = range(len(REQUESTS))
    judged.check("its end", is_well, (judged.served.status, judged.served.said, lost, count))
    judged.statuses_are_right()
    asked = tuple(lines[at] for at in made)
    wanted, answers = runs.judge.answers(asked), judged.answers(None)
    judged.check("answers", all(answers[at] in (None, answer) for at, answer in zip(made, wanted)), (wanted, answers))
    is_whole, rows = seen_by_sqlite(runs.path)
    judged.check("the rows", is_whole and rows == runs.judge.rows(asked), (asked, rows))
