"""Files that stand beside an index, on a recording disk, and what a power cut may leave of them: copies of
index-backup, a damaged log that index-log keeps and cuts, what index-uncache and its follower take out of nginx's
cache, and the record of indexctl."""
from __future__ import annotations

import glob
import json
import os
import subprocess
import sys
import tempfile
import time
from collections.abc import Callable

from support.cuts_of_tools import ROOM, ended_well, served, sync_beside, syncs_beside
from support.indexctl.control import Control, digest, environment, filled, line, user_lines
from support.judge import copy_index, rows_of, seen_by_sqlite
from support.places import BIN, INDEXCTL
from support.power_cuts import Job, Mark, Rows, large_requests
from support.server.caches import keys, make_cache
from support.server.logs import Logs, bytes_of
from support.server.waits import wait_for
from support.serving import Index, make_index
from support.volumes import keep_copy
from support.workload import message_of

# how often another program syncs its file behind the last answer: an answer that can be lost is lost before
LATER = 3
# in seconds, for what the follower does on a busy machine
PATIENCE = 300
FILES = [f"frob-1.{at}.tar.gz" for at in range(6)]
OTHER = "/files/spam/spam-1.tar.gz"
# indexctl, whose random token is the same in each run, and which waits for a line behind each change that it tells
KNOWN = """
import builtins, runpy, secrets, sys
secrets.token_hex = lambda size: "ab" * size
tell = builtins.print
def tell_and_wait(*words, **more):
    tell(*words, **more)
    if words and str(words[0]).endswith(": accepted"):
        sys.stdin.readline()
builtins.print = tell_and_wait
sys.argv.pop(0)
runpy.run_path(sys.argv[0], run_name="__main__")
"""
LEAVES = "user", "leave", "eve", "--to", "bob", "--yes"
TEXTS = {"kind": "reuse", "contact": "a", "work": "b", "why": "c"}


def backup_job(program: str, folder: str) -> Job:
    """A second copy is made of an index with a log, and takes the place of the first."""
    messages = [message_of(it) for it in large_requests(12)]
    first = served(program, make_index(program, f"{folder}/first.db"), messages[:6])
    old = served(program, copy_index(first, f"{folder}/old.db"), messages[6:])
    ended_well([program, "check", "--db", first])
    both = [rows_of(copy_index(it, f"{folder}/seen.db")) for it in (first, old)]

    def prepare(path: str) -> None:
        copy_index(old, path)
        os.mkdir(f"{os.path.dirname(path)}/copies")
        keep_copy(first, f"{os.path.dirname(path)}/copies/index-20260101T000000Z")

    def make(path: str) -> None:
        ended_well([f"{BIN}/index-backup", path, f"{os.path.dirname(path)}/copies", "1"], INDEX=program)

    def drive(path: str, mark: Mark) -> None:
        make(path)
        mark()
        sync_beside(path, LATER)

    def beside(path: str, answered: int) -> str:
        found = [seen_by_sqlite(it) for it in sorted(glob.glob(f"{os.path.dirname(path)}/copies/*.db"))]
        if not all(is_sound and rows in both for is_sound, rows in found):
            return f"a copy is not sound: {told_files(f'{os.path.dirname(path)}/copies')}"
        return "" if found and (not answered or found[-1][1] == both[1]) else f"{len(found)} copies, not the last one"

    def again(path: str) -> str:
        make(path)
        left = glob.glob(f"{os.path.dirname(path)}/copies/*.part*")
        return beside(path, 1) or (f"left: {left}" if left else "")
    return Job("backup", prepare, drive, [both[1], both[1]], told(again), ROOM, syncs_beside, beside)


def told(again: Callable[[str], str]) -> Callable[[str], str]:
    """A next run that ends otherwise than it should is what is wrong."""
    def run_again(path: str) -> str:
        try:
            return again(path)
        except AssertionError as end:
            return f"the next run: {end}"
    return run_again


def told_files(folder: str) -> list[str]:
    """The files of a folder, with their lengths."""
    return [f"{it}: {os.path.getsize(f'{folder}/{it}')}" for it in sorted(os.listdir(folder))]


def log_job(program: str, folder: str) -> Job:
    """A damaged log is kept, and cut."""
    logs = Logs(program, folder)
    damaged = logs.copy(logs.damaged_bit())
    before = bytes_of(damaged, f"{damaged}-wal")
    rows = rows_of(copy_index(damaged, f"{folder}/seen.db"))

    def make(path: str) -> None:
        ended_well([f"{BIN}/index-log", "--accept", path], INDEX=program)

    def drive(path: str, mark: Mark) -> None:
        make(path)
        mark()
        sync_beside(path, LATER)

    def beside(path: str, answered: int) -> str:
        folders = [it for it in glob.glob(f"{os.path.dirname(path)}/damaged-*") if not it.endswith(".part")]
        kept = [bytes_of(*sorted(glob.glob(f"{it}/*"))) for it in folders]
        is_cut = bytes_of(path, f"{path}-wal") != before
        if kept not in ([], [before]) or kept == [] and (is_cut or answered):
            return f"the log {'is' if is_cut else 'is not'} cut, and kept is {[told_files(it) for it in folders]}"
        return "it is not cut" if answered and not is_cut else ""

    def again(path: str) -> str:
        make(path)
        return beside(path, 1) or ("half a copy is left" if glob.glob(f"{os.path.dirname(path)}/*.part") else "")
    return Job("log", lambda path: copy_index(damaged, path), drive, [rows, rows], told(again), ROOM, syncs_beside,
               beside)


def uncache_job(program: str, folder: str) -> Job:
    """Files go out of nginx's cache, each by a run."""
    new = make_index(program, f"{folder}/new.db")

    def prepare(path: str) -> None:
        copy_index(new, path)
        make_cache(f"{os.path.dirname(path)}/cache", [("spam", "spam-1.tar.gz"), *(("frob", it) for it in FILES)])

    def drive(path: str, mark: Mark) -> None:
        for file in FILES:
            ended_well([f"{BIN}/index-uncache", "--cache", f"{os.path.dirname(path)}/cache", "frob", file])
            mark()
            sync_beside(path)

    def beside(path: str, answered: int) -> str:
        return left_of(f"{os.path.dirname(path)}/cache", FILES[:answered])
    return Job("uncache", prepare, drive, [rows_of(new)] * (len(FILES) + 1), meanwhile=syncs_beside, beside=beside)


def left_of(cache: str, files: list[str]) -> str:
    """What is wrong in a cache from which these files were taken out."""
    found = keys(cache)
    if OTHER not in found:
        return "a file of another project is gone"
    back = [it for it in files if f"/files/frob/{it}" in found]
    return f"back in the cache: {back}" if back else ""


class Follow:
    """The follower takes out what nginx's log of changes names. That stands on another disk, and beside the cache the
    place up to which it was read, and the list for other nginx. A file is away, and in the list, as soon as the place
    is behind its line."""

    def __init__(self, program: str, folder: str) -> None:
        self.new, self.log = make_index(program, f"{folder}/new.db"), f"{folder}/changes.log"
        self.lines = [json.dumps({"status": 200, "method": "DELETE", "path": f"/files/frob/{it}"}) + "\n"
                      for it in FILES]

    def prepare(self, path: str) -> None:
        copy_index(self.new, path)
        make_cache(f"{os.path.dirname(path)}/cache", [("spam", "spam-1.tar.gz"), *(("frob", it) for it in FILES)])

    def start(self, path: str) -> subprocess.Popen[bytes]:
        at = os.path.dirname(path)
        return subprocess.Popen([sys.executable, "-B", f"{BIN}/index-uncache-follow", "--again", "0", "--log", self.log,
                                 "--cache", f"{at}/cache", "--place", f"{at}/place"])

    def drive(self, path: str, mark: Mark) -> None:
        with open(self.log, "w", encoding="ascii") as written, self.start(path) as follower:
            for text in self.lines:
                written.write(text)
                written.flush()
                assert wait_for(lambda: place_of(path) == written.tell(), PATIENCE)
                sync_beside(path)
            follower.terminate()

    def beside(self, path: str, _: int) -> str:
        read, done = place_of(path), 0
        while read >= sum(map(len, self.lines[:done + 1])) and done < len(self.lines):
            done += 1
        return left_of(f"{os.path.dirname(path)}/cache", FILES[:done]) or self.unlisted(path, done)

    def unlisted(self, path: str, done: int) -> str:
        """Which of the first lines the list does not have."""
        try:
            with open(f"{os.path.dirname(path)}/removed", errors="replace", encoding="utf-8") as kept:
                listed = kept.readlines()
        except FileNotFoundError:
            listed = []
        missing = [it for it in self.lines[:done] if it not in listed]
        return f"not in the list: {missing}" if missing else ""

    def again(self, path: str) -> str:
        """All that the log names goes, also if the place was lost."""
        with self.start(path) as follower:
            is_done = wait_for(lambda: not self.left_to_do(path), PATIENCE)
            follower.terminate()
        return "" if is_done else self.left_to_do(path)

    def left_to_do(self, path: str) -> str:
        """What is not done of all that the log names."""
        left = keys(f"{os.path.dirname(path)}/cache")
        return self.unlisted(path, len(self.lines)) if left == [OTHER] else f"left in the cache: {left}"


def place_of(path: str) -> int:
    """How many bytes of the log were read up to the place that is kept, or 0."""
    try:
        with open(f"{os.path.dirname(path)}/place", encoding="ascii") as kept:
            return int(kept.read().split()[1])
    except (FileNotFoundError, IndexError):
        return 0


def follow_job(program: str, folder: str) -> Job:
    follow = Follow(program, folder)
    return Job("follow_whose_place_may_be_lost", follow.prepare, follow.drive, [rows_of(follow.new)] * 2, follow.again,
               meanwhile=syncs_beside, beside=follow.beside)


class Asked:
    """Runs of indexctl with these words for an index on the disk, with a record beside it."""

    def __init__(self, program: str, folder: str, words: list[str], at: int) -> None:
        self.program, self.folder, self.words, self.at = program, folder, words, at

    def said(self, path: str, mark: Mark = lambda: None) -> str:
        """What a run says that has to succeed. Each line of a change that was accepted gets a mark."""
        record = f"{os.path.dirname(path)}/record"
        words = [it.replace("RECORD", record) for it in self.words]
        with Index(self.program, path=path, at=self.at) as index:
            setting = Control(self.folder, f"http://127.0.0.1:{index.port}", INDEX_RECORD=record).setting
            with subprocess.Popen([sys.executable, "-c", KNOWN, INDEXCTL[-1], *words], stdout=subprocess.PIPE,
                                  stderr=subprocess.STDOUT, text=True, stdin=subprocess.PIPE,
                                  env=environment(INDEX_TOKEN="office", **setting)) as asking:
                assert asking.stdin and asking.stdout
                said = []
                for text in asking.stdout:
                    said.append(text)
                    if text.endswith(": accepted\n"):
                        mark()
                        asking.stdin.write("\n")
                        asking.stdin.flush()
            index.process.kill()
        assert asking.returncode == 0, said
        return "".join(said)


def asked_job(name: str, asked: Asked, made: str, record: str) -> Job:
    """Changes are asked for one after the other. Each is in the record when it is told; a second run does the rest."""
    def prepare(path: str) -> None:
        copy_index(made, path)
        with open(f"{os.path.dirname(path)}/record", "w", encoding="ascii") as written:
            written.write(record)

    def drive(path: str, mark: Mark) -> None:
        asked.said(path, mark)
        sync_beside(path, LATER)

    def beside(path: str, answered: int) -> str:
        with open(f"{os.path.dirname(path)}/record", encoding="ascii", errors="replace") as kept:
            text = kept.read()
        whole = [it for it in text[len(record):].split("\n") if it.startswith("{") and it.endswith("}")]
        if not text.startswith(record) or len(whole) < answered:
            return f"{answered} were told, and the record has {text!r}"
        with tempfile.TemporaryDirectory() as folder:
            copy = copy_index(path, f"{folder}/index.db")
            with open(f"{folder}/record", "w", encoding="ascii") as sound:
                # a line that was under way may be torn: the next replay names it, and says to leave it out
                sound.write(record + "".join(f"{it}\n" for it in whole))
            asked.said(copy)
            return "" if rows_of(copy) == states[-1] else "a second run does not do the rest"

    os.mkdir(f"{asked.folder}/plain")
    plain = f"{asked.folder}/plain/index.db"
    prepare(plain)
    states: list[Rows | None] = [rows_of(made)]
    drive(plain, lambda: states.append(rows_of(copy_index(plain, f"{asked.folder}/seen.db"))))
    return Job(name, prepare, drive, states, room=ROOM, meanwhile=syncs_beside, beside=told_beside(beside))


def told_beside(beside: Callable[[str, int], str]) -> Callable[[str, int], str]:
    def look(path: str, answered: int) -> str:
        return told(lambda found: beside(found, answered))(path)
    return look


def leave_job(program: str, folder: str) -> Job:
    made = filled(program, f"{folder}/made.db", [
        *user_lines("ann", "bob", "eve"), *(line(1, "eve", "claim", name=it) for it in ("one", "two")),
        line(2, "eve", "add_owner", name="two", user="bob"), line(2, "ann", "claim", name="frob"),
        line(3, "eve", "open_case", name="frob", **TEXTS)])
    return asked_job("leave", Asked(program, folder, list(LEAVES), 7), made, "")


def replay_job(program: str, folder: str) -> Job:
    now = int(time.time())
    made = filled(program, f"{folder}/made.db", [
        *user_lines("ann", "bob"), line(now - 100, "ann", "claim", name="old"),
        line(now - 90, "bob", "open_case", name="old", **TEXTS)])
    rows = ({"do": "prohibit", "name": "evil"}, {"do": "set_quota", "name": "old", "quota": 1 << 30},
            *({"do": "record_attempt", "name": "old", "means": it, "sent": True} for it in ("profile", "author")),
            {"do": "add_user", "user": "zoe", "office": False, "token_sha256": digest("zoe")})
    record = "".join(json.dumps({"at": time.strftime("%Y-%m-%dT%H:%M:%SZ", time.gmtime(now - 50 + at)),
                                 "caller": digest("office")[:8], **row}) + "\n" for at, row in enumerate(rows))
    words = ["replay", "RECORD", "--since", time.strftime("%Y-%m-%dT%H:%M:%SZ", time.gmtime(now - 60))]
    return asked_job("replay", Asked(program, folder, words, now), made, record)


# by their names, which say what may be lost by design: without a place the follower reads its log from the start
JOBS = {"backup": backup_job, "log": log_job, "uncache": uncache_job, "follow_whose_place_may_be_lost": follow_job,
        "leave": leave_job, "replay": replay_job}
