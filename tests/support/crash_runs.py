"""The runs of which images of a crash are made, each with its record and the rows that hold at each of its answers.

They are thirty requests by `apply`, a large file by `serve`, `init`, the migration of version 1, and the opening of an
index that was killed, whose log is copied into the file."""
from __future__ import annotations

import os
from dataclasses import dataclass, replace

from support.images import ANSWERED, read_record
from support.judge import LOG, copy_index, seen_by_sqlite
from support.old_version import make_old_version
from support.serving import OFFICE, Index, reply_to
from support.running import built, kill_after, run
from support.volumes import VOLUME
from support.workload import REQUESTS, lines_of, message_of, of_name, upload

# more than the program keeps in memory of one change, and than the log holds before it is copied
LARGE = 8_400_000
# of the files of an index, in the order of images
ENDS = "", LOG, VOLUME


@dataclass(frozen=True)
class Recorded:
    """A run. `states` are the rows behind each number of answers, with None where there is no index yet; `before` are
    rows of another version that SQLite may see as long as nothing was answered."""
    name: str
    first: tuple
    entries: tuple
    answers: tuple
    states: tuple
    before: tuple = ()

    def allowed(self, number):
        """The rows that a crash behind this entry may leave: those of what was answered, or with what was in hand."""
        answered = self.answers[number]
        return self.states[answered:answered + 2]

    def without_syncs(self, left_out):
        """The same run with a record in which the syncs at these places are no syncs."""
        pairs = [pair for at, pair in enumerate(zip(self.entries, self.answers)) if at not in left_out]
        return replace(self, entries=tuple(entry for entry, _ in pairs), answers=tuple(number for _, number in pairs))


def content(path):
    if not os.path.exists(path):
        return None
    with open(path, "rb") as kept:
        return kept.read()


def contents(path):
    """Of a database, its log and its volume, in the order of images; None of what is not there."""
    return tuple(content(path + end) for end in ENDS)


def answers_begun(entries, is_served):
    """Behind each entry, how many answers had begun to go out."""
    text, replies, found = b"", 0, []
    for entry in entries:
        if entry.done == ANSWERED:
            text += b"" if is_served else entry.body
            replies += entry.body.startswith(b"HTTP/1.1 ")
        found.append(replies if is_served else len(text.splitlines()))
    return tuple(found)


class Recording:
    """Runs the program with its calls recorded, on a database in a folder of its own."""

    def __init__(self, program, judge, folder):
        self.program, self.judge, self.folder = program, judge, folder
        self.library, self.record = built("record_calls", folder), f"{folder}/record"
        self.path = f"{folder}/recorded/index.db"
        os.makedirs(f"{folder}/recorded", exist_ok=True)
        self.setting = {"LD_PRELOAD": self.library, "RECORD_UNDER": f"{folder}/recorded", "RECORD_TO": self.record}
        self.known = {}

    def run_of(self, name):
        """The run of this name, which is recorded once."""
        if name not in self.known:
            made = {"apply": self.apply, "opening": self.opening, "init": self.init, "migration": self.migration,
                    "serve": self.large}
            self.known[name] = made[name]()
        return self.known[name]

    def begin(self, first):
        return contents(copy_index(first or "", self.path))

    def recorded(self, name, first, states, before=(), is_served=False):
        entries = tuple(read_record(self.record))
        return Recorded(name, first, entries, answers_begun(entries, is_served), tuple(states), before)

    def apply(self):
        """Requests by `apply`, to its end."""
        lines = lines_of(REQUESTS)
        first = self.begin(self.judge.new)
        run(self.program, "apply", "--db", self.path, given=b"".join(lines), setting=self.setting)
        states = [self.judge.rows(lines[:count]) for count in range(len(lines) + 1)]
        return self.recorded("apply", first, states)

    def opening(self):
        """An index that was killed is opened, checked and closed, and so its log is copied into the file."""
        lines = lines_of(REQUESTS)
        killed = kill_after(self.program, copy_index(self.judge.new, f"{self.folder}/killed.db"), lines)
        rows, first = self.judge.rows(lines), self.begin(killed)
        run(self.program, "check", "--db", self.path, setting=self.setting)
        return self.recorded("opening", first, (rows, rows))

    def init(self):
        first = self.begin(None)
        run(self.program, "init", "--db", self.path, *OFFICE, setting=self.setting)
        return self.recorded("init", first, (None, self.judge.rows(())))

    def migration(self):
        first = self.begin(make_old_version(f"{self.folder}/old.db"))
        _, before = seen_by_sqlite(self.path)
        run(self.program, "check", "--db", self.path, setting=self.setting)
        _, rows = seen_by_sqlite(self.path)
        return self.recorded("migration", first, (rows, rows), before=(before,))

    def large(self):
        """A large file by `serve`: it doesn't fit into memory as one change, and the log is copied while it serves."""
        messages = [message_of(request) for request in large_requests()]
        states = [self.served(messages[:count]) for count in range(len(messages) + 1)]
        self.served(messages, self.setting)
        return self.recorded("serve", contents(self.judge.new), states, is_served=True)

    def served(self, messages, setting=None):
        """The rows behind these messages."""
        self.begin(self.judge.new)
        if messages:
            with Index(self.program, len(messages), self.path, setting=setting, at=7) as index:
                for message in messages:
                    reply_to(index.port, message)
                index.process.wait(timeout=60)
        return seen_by_sqlite(self.path)[1]


def large_requests():
    piece = bytes(at * at % 253 for at in range(65_536))
    large = piece * (LARGE // len(piece) + 1)
    return [
        of_name("office", "claim", "frob"),
        upload("office", "frob-1.0.tar.gz", b"abc"),
        upload("office", "frob-1.1.tar.gz", large),
        upload("office", "frob-1.2.tar.gz", b"a")
    ]


class Opening:
    """Opens images with the program, and holds what it finds to what may be there."""

    def __init__(self, program, recording, path):
        self.program, self.recording, self.path = program, recording, path

    def wrong(self, run_of, number, image):
        """What is wrong with an image of the crash behind this entry of a run, or None."""
        allowed = run_of.allowed(number)
        lay(image, self.path)
        if None not in allowed:
            is_sound, rows = seen_by_sqlite(self.path)
            if not is_sound or rows not in (*allowed, *run_of.before):
                return f"SQLite: {'sound' if is_sound else 'damaged'}, {rows}"
        else:
            again = run(self.program, "init", "--db", self.path, *OFFICE)
            if again.stdout != b"created\n" and not again.stderr.startswith(b"index: NotEmpty\n"):
                return f"init again: {again}"
        checked = run(self.program, "check", "--db", self.path)
        if (checked.returncode, checked.stdout, checked.stderr) != (0, b"0\n", b""):
            return f"check: {checked}"
        is_sound, rows = seen_by_sqlite(self.path)
        if not is_sound or rows not in allowed:
            return f"opened: {'sound' if is_sound else 'damaged'}, {rows}"
        return None

    def record_of(self, image):
        """The record of an opening of this image."""
        lay(image, self.recording.path)
        run(self.program, "check", "--db", self.recording.path, setting=self.recording.setting)
        return read_record(self.recording.record)


def lay(image, path):
    """Writes a database, its log and its volume to a path, or removes what is not in the image."""
    for end, kept in zip(ENDS, image, strict=True):
        if os.path.exists(path + end):
            os.remove(path + end)
        if kept is not None:
            with open(path + end, "wb") as laid:
                laid.write(kept)
