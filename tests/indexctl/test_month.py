"""What owners and the office do in a month: each is one command, and stands in the tables afterwards."""
from __future__ import annotations

import os
import re
import shutil
import time
from dataclasses import dataclass
from typing import Any, Dict, Iterator, Sequence

import pytest
from support.indexctl.control import (DAY, Control, Ended, assert_ends, digest, filled, line, rows_in, rows_of,
                                      upload_line, user_lines)
from support.packages import make_packages, wheel_name
from support.planted import catches
from support.serving import Index

pytestmark = pytest.mark.xdist_group("month")
REASON = """it's "broken" & <odd>"""
TEN = tuple(f"user{at}" for at in range(10))
TOKEN = re.compile(r"^(\w+)'s token, which is shown this once: ([0-9a-f]{64})$", re.M)


def lines_before(now: int) -> Iterator[Dict[str, object]]:
    """What the index has before the month: names, files, and two cases."""
    old, year = now - 500 * DAY, now - 420 * DAY
    yield from user_lines("ann", "bob", "carol", "dave")
    for name, owner in (("alpha", "ann"), ("Beta", "ann"), ("gamma", "ann"), ("delta", "ann"), ("evil", "bob"),
                        ("omega", "bob")):
        yield line(old, owner, "claim", name=name)
    yield line(old, "ann", "add_owner", name="beta", user="bob")
    yield line(old, "office", "set_quota", name="gamma", quota=1000)
    for token, file, size in (("ann", "alpha-1.0.tar.gz", 10), ("ann", wheel_name("beta", "1.0"), 20),
                              ("ann", "gamma-1.0.tar.gz", 900), ("ann", "delta-1.0.tar.gz", 30),
                              ("bob", "evil-1.0.tar.gz", 40)):
        yield upload_line(year, token, file, size)
    texts = {"contact": "two letters", "work": "a fork", "why": "it is pinned"}
    yield line(now - 60 * DAY, "carol", "open_case", name="alpha", kind="continue", **texts)
    for means in ("profile", "author"):
        yield line(now - 50 * DAY, "office", "record_attempt", name="alpha", means=means, sent=True)
    yield line(now - 20 * DAY, "dave", "open_case", name="omega", kind="reuse", **texts)
    yield line(now - 18 * DAY, "office", "record_attempt", name="omega", means="profile", sent=True)


@dataclass(frozen=True)
class Task:
    """A command, who runs it, and how it has to end."""
    name: str
    words: Sequence[str]
    said: Sequence[str] = ()
    status: int = 0
    caller: str = "office"


# by `OLD TOKEN` somebody asks who has cibuild's first token; DIST is the folder of packages
TASKS = (
    Task("ten users are added", ["user", "add", *TEN], [f"{it}'s token" for it in TEN]),
    Task("a user of the office asks first", ["user", "add", "boss", "--office"], ["for good", "--yes"], 2),
    Task("a pipeline's user", ["user", "add", "cibuild"], ["cibuild's token"]),
    Task("a pipeline's names", ["owner", "add", "cibuild", "beta", "gamma"], ["gamma: add owner cibuild: accepted"], 0,
         "ann"),
    Task("a token is rotated", ["user", "rotate", "cibuild"], ["cibuild's token"]),
    Task("the old token ends", ["name", "claim", "later"], ["BadToken"], 1, "OLD TOKEN"),
    Task("names are claimed", ["name", "claim", "Frob", "spam-nest"], ["claim Frob: accepted"], 0, "ann"),
    Task("an owner is added", ["owner", "add", "bob", "frob"], ["bob: accepted"], 0, "ann"),
    Task("an owner that is no user", ["owner", "add", "bbo", "frob"], ["NoUser", "There is no user bbo"], 1, "ann"),
    Task("who may is told", ["owner", "add", "carol", "frob"], ["NotOwner", "ann, bob"], 1, "carol"),
    Task("a name of others", ["name", "claim", "FROB"], ["NameHeld", "ann, bob"], 1, "dave"),
    Task("dist is uploaded", ["upload", "DIST"], ["5 of 5 files are there"], 0, "ann"),
    Task("a release is yanked", ["release", "yank", "beta", "1.0", "--reason", REASON], ["accepted"], 0, "ann"),
    Task("another release is yanked", ["release", "yank", "gamma", "1.0"], ["accepted"], 0, "ann"),
    Task("a yank is taken back", ["release", "unyank", "gamma", "1.0"], ["unyank gamma 1.0: accepted"], 0, "ann"),
    Task("a quota is raised", ["quota", "set", "beta", "+1GiB"], ["1.0 GiB becomes 2.0 GiB (2147483648 bytes)"]),
    Task("a slip in a quota", ["quota", "set", "beta", "5Gi8"], ["not a size"], 2),
    Task("a quota below the charge", ["quota", "set", "gamma", "100"], ["QuotaBelowCharge", "900 B"], 1),
    Task("quotas near the end", ["quotas", "--above", "80", "--json"]),
    Task("quotas from 90 on", ["quotas", "--above", "90", "--json"]),
    Task("quotas above 90", ["quotas", "--above", "90.1", "--json"]),
    Task("the open cases", ["case", "list", "--json"]),
    Task("a slip in the means", ["case", "attempt", "alpha", "mail"], ["invalid choice"], 2),
    Task("a transfer too soon", ["case", "transfer", "alpha", "--quiet", "--yes"],
         ["TooFewAttempts", "an attempt by pages"], 1),
    Task("an attempt", ["case", "attempt", "alpha", "pages"], ["attempt by pages: accepted"]),
    Task("the cases with an attempt more", ["case", "list", "--json"]),
    Task("a transfer asks first", ["case", "transfer", "alpha", "--quiet"], ["from ann to carol", "--yes"], 2),
    Task("a transfer", ["case", "transfer", "alpha", "--quiet", "--yes"], ["transfer: accepted"]),
    Task("a ban asks first", ["file", "ban", "delta-1.0.tar.gz"], ["for good", "--yes"], 2),
    Task("a ban", ["file", "ban", "delta-1.0.tar.gz", "--yes"], ["accepted", "index-uncache delta delta-1.0.tar.gz"]),
    Task("a prohibition asks first", ["name", "prohibit", "evil"], ["1 file of bob", "--yes"], 2),
    Task("a prohibition", ["name", "prohibit", "evil", "--yes"], ["accepted", "index-uncache evil evil-1.0.tar.gz"]),
    Task("who owns a name", ["who", "beta", "nobody-has-this", "--json"]),
    Task("what a user owns", ["owned-by", "ann", "--json"]),
    Task("who leaves needs an heir", ["user", "leave", "ann", "--yes"], ["the only owner of delta, spam-nest"], 2),
    Task("an heir who leaves", ["user", "leave", "ann", "--to", "ann", "--yes"], ["Name another user"], 2),
    Task("an heir that is no user", ["user", "leave", "ann", "--to", "bbo", "--yes"], ["no user bbo"], 1),
    Task("a user leaves", ["user", "leave", "ann", "--to", "bob", "--yes"], ["delta: remove owner ann: accepted"]),
    Task("the user is locked out", ["name", "claim", "later"], ["BadToken"], 1, "ann"),
)
TABLES = {
    "the pipeline owns them": ("SELECT name FROM owners WHERE user = 'cibuild' ORDER BY name", [("beta",), ("gamma",)]),
    "no user is of the office by a slip": ("SELECT user FROM users WHERE office = 1", [("office",)]),
    "the owners of frob": ("SELECT user FROM owners WHERE name = 'frob' ORDER BY user", [("bob",)]),
    "its shown name": ("SELECT shown FROM names WHERE name = 'frob'", [("Frob",)]),
    "its files": ("SELECT count(*) FROM files JOIN blobs USING (file) WHERE name IN ('frob', 'spam-nest')", [(5,)]),
    "the yank has its reason": ("SELECT name, rel, reason FROM yanks", [("beta", "1.0", REASON)]),
    "the quota is that": ("SELECT quota FROM names WHERE name = 'beta'", [(2147483648,)]),
    "the name has passed": ("SELECT user FROM owners WHERE name = 'alpha'", [("carol",)]),
    "one case is left": ("SELECT name, attempts, sent FROM cases", [("omega", 1, 1)]),
    "the file is banned": ("SELECT file FROM bans", [("delta-1.0.tar.gz",)]),
    "the name is prohibited": ("SELECT state FROM names WHERE name = 'evil'", [(2,)]),
    "its file is deleted": ("SELECT live FROM files WHERE name = 'evil'", [(0,)]),
    "the user owns nothing": ("SELECT count(*) FROM owners WHERE user = 'ann'", [(0,)]),
    "the heir owns it": ("SELECT name FROM owners WHERE user = 'bob' ORDER BY name",
                         [("beta",), ("delta",), ("frob",), ("gamma",), ("omega",), ("spam-nest",)]),
}


def named(text: str) -> str:
    """The name of a test from what it looks at."""
    return re.sub(r"\W+", "_", text.replace("'s", "_s"))


@dataclass
class Month:
    """How each task ended, the tokens that were printed, and the database afterwards."""
    began: int
    ended: Dict[str, Ended[str]]
    tokens: Dict[str, str]
    path: str

    def rows(self, name: str) -> Any:
        return rows_in(self.ended[name])


def worked(by: Control, dist: str, month: Month) -> None:
    """Runs the tasks, in their order."""
    first = ""
    for task in TASKS:
        words = [dist if word == "DIST" else word for word in task.words]
        ended = by.run(*words, caller=first or "nobody" if task.caller == "OLD TOKEN" else task.caller)
        month.ended[task.name] = ended
        month.tokens.update(TOKEN.findall(ended.stdout))
        first = first or month.tokens.get("cibuild", "")


@pytest.fixture(scope="module")
def month(program: str, open_folder: str, certificate: str) -> Month:
    """The month, at an index behind nginx with TLS, which has ended."""
    from support.server.front import Front
    made = Month(int(time.time()), {}, {}, f"{open_folder}/month.db")
    filled(program, made.path, lines_before(made.began))
    dist, built = f"{open_folder}/dist", f"{open_folder}/built"
    for folder in (dist, built):
        os.mkdir(folder)
    for files in make_packages(built).values():
        for file, (path, _) in files.items():
            shutil.copy(path, f"{dist}/{file}")
    with Index(program, path=made.path, patience=60) as index:
        with Front(f"{open_folder}/front", certificate, index.port) as front:
            by = Control(open_folder, front.url, certificate, INDEX_RECORD=f"{open_folder}/record.jsonl")
            worked(by, dist, made)
    return made


@catches("indexctl/commands/users.py", "return sha256(token), token", "return sha256(token), None",
         case="ten_users_are_added",
         also=["test_a_task_is_one_command[a_pipeline_s_user]", "test_a_task_is_one_command[a_token_is_rotated]",
               "test_each_user_has_the_token_that_was_printed"])
@catches("indexctl/terminal.py", "if args.yes:", "if True:", case="a_user_of_the_office_asks_first",
         also=["test_a_task_is_one_command[a_transfer_asks_first]", "test_a_task_is_one_command[a_ban_asks_first]",
               "test_a_task_is_one_command[a_prohibition_asks_first]",
               "indexctl/test_terminal.py::test_an_answer_that_is_not_yes_does_nothing"])
@catches("indexctl/commands/users.py", 'row = {"do": "set_token", "user": args.user, "token_sha256": digest}',
         'row = {"do": "add_user", "user": args.user, "office": False, "token_sha256": digest}',
         case="a_token_is_rotated", also=["test_a_task_is_one_command[the_old_token_ends]"])
@catches("indexctl/commands/names.py", 'desk.change(what.format(name), {"do": do, "name": name, **row})',
         'desk.change(what.format(name), {"do": "allow" if do == "claim" else "claim", "name": name})',
         case="a_pipeline_s_names",
         also=["test_the_tables_say_so_afterwards[the_pipeline_owns_them]",
               "test_a_task_is_one_command[names_are_claimed]", "test_a_task_is_one_command[an_owner_that_is_no_user]",
               "test_a_task_is_one_command[who_may_is_told]", "test_a_task_is_one_command[a_name_of_others]",
               "test_the_tables_say_so_afterwards[its_shown_name]", "test_a_task_is_one_command[dist_is_uploaded]",
               "test_the_tables_say_so_afterwards[its_files]"])
@catches("indexctl/commands/releases.py", '{"do": "yank", "name": name, "release": release,',
         '{"do": "yank", "name": name, "release": "7",', case="a_release_is_yanked")
@catches("indexctl/units.py", '**{f"{it}IB": 1024 ** at for at, it in enumerate("KMGT", 1)}, "B": 1}',
         '**{f"{it}IB": 1000 ** at for at, it in enumerate("KMGT", 1)}, "I8": 1, "B": 1}', case="a_quota_is_raised",
         also=["test_the_tables_say_so_afterwards[the_quota_is_that]"])
@catches("indexctl/units.py", r'found = re.fullmatch(r"(\+?)(\d+(?:\.\d+)?) ?([A-Za-z]*)", text, re.ASCII)',
         r'found = re.match(r"(\+?)(\d+(?:\.\d+)?) ?((?:[A-Za-z]i?B)?)", text, re.ASCII)', case="a_slip_in_a_quota")
@catches("indexctl/changes.py", 'sentence = f"{what}: {status} {answer}. {advice}".rstrip()',
         'sentence = f"{what}: {status} {answer}."', case="a_quota_below_the_charge",
         also=["test_a_task_is_one_command[an_owner_that_is_no_user]", "test_a_task_is_one_command[who_may_is_told]",
               "test_a_task_is_one_command[a_name_of_others]", "test_a_task_is_one_command[a_transfer_too_soon]"])
@catches("indexctl/commands/cases.py",
         'argument("means", metavar="MEANS", choices=MEANS, help="profile, author or pages"),',
         'argument("means", metavar="MEANS", help="profile, author or pages"),', case="a_slip_in_the_means")
@catches("indexctl/commands/cases.py",
         'return each_name(args, "record_attempt", what, means=args.means, sent=not args.not_sent)',
         'args.names = ["z"]; return each_name(args, "allow", what)', case="an_attempt",
         also=["test_the_year_is_seen_without_a_transfer", "test_a_task_is_one_command[a_transfer]",
               "test_the_tables_say_so_afterwards[the_name_has_passed]"])
@catches("indexctl/commands/names.py", 'return each_name(args, "add_owner",', 'return each_name(args, "remove_owner",',
         case="an_owner_is_added")
@catches("indexctl/commands/files.py", 'if desk.change(f"ban {file}", {"do": "ban_file", "file": file}):',
         'if desk.change(f"ban {file}", {"do": "allow", "name": "-"}):',
         ("indexctl/commands/names.py", 'if desk.change(f"prohibit {name}", {"do": "prohibit", "name": name}):',
          'if desk.change(f"prohibit {name}", {"do": "allow", "name": "-"}):'), case="a_ban",
         also=["test_the_tables_say_so_afterwards[the_file_is_banned]", "test_a_task_is_one_command[a_prohibition]",
               "test_the_tables_say_so_afterwards[the_name_is_prohibited]",
               "test_the_tables_say_so_afterwards[its_file_is_deleted]", "indexctl/test_terminal.py::test_yes_does_it"])
@catches("indexctl/commands/users.py", "if alone and not args.to:", "if alone is None:",
         ("indexctl/commands/users.py", "if args.to == args.user:", "if not args.user:"),
         ("indexctl/commands/users.py", "if user and not desk.is_user(user):", "if not user:"),
         ("indexctl/commands/users.py", "pass_on(desk, found, user, heir, token)", "pass"),
         ("indexctl/commands/users.py",
          'if desk.change(f"user {user}: lock", {"do": "set_token", "user": user, "token_sha256": sha256(token)}):',
          'if desk.change(f"user {user}: lock", {"do": "allow", "name": "free"}):'), case="who_leaves_needs_an_heir",
         also=["test_a_task_is_one_command[an_heir_who_leaves]", "test_a_task_is_one_command[an_heir_that_is_no_user]",
               "test_a_task_is_one_command[a_user_leaves]", "test_a_task_is_one_command[the_user_is_locked_out]",
               "test_the_tables_say_so_afterwards[the_owners_of_frob]",
               "test_the_tables_say_so_afterwards[the_user_owns_nothing]",
               "test_the_tables_say_so_afterwards[the_heir_owns_it]"])
@pytest.mark.parametrize("task", TASKS, ids=lambda it: named(it.name))
def test_a_task_is_one_command(month: Month, task: Task) -> None:
    assert_ends(month.ended[task.name], task.status, *task.said)


@catches("indexctl/commands/users.py",
         'row = {"do": "add_user", "user": user, "office": args.office, "token_sha256": digest}',
         'row = {"do": "add_user", "user": user, "office": True, "token_sha256": digest}',
         case="no_user_is_of_the_office_by_a_slip")
@catches("indexctl/commands/releases.py", '"reason": args.reason})', '"reason": ""})', case="the_yank_has_its_reason")
@catches("indexctl/commands/cases.py", 'return each_name(args, "record_attempt", what',
         'args.names = ["omega"]; return each_name(args, "record_attempt", what', case="one_case_is_left")
@pytest.mark.parametrize("what", TABLES, ids=named)
def test_the_tables_say_so_afterwards(month: Month, what: str) -> None:
    query, rows = TABLES[what]
    assert rows_of(month.path, query) == rows


def test_each_user_has_the_token_that_was_printed(month: Month) -> None:
    users = dict(rows_of(month.path, "SELECT user, lower(hex(token)) FROM users"))
    printed = {user: digest(month.tokens.get(user, "none")) for user in (*TEN, "cibuild")}
    assert {user: users[user] for user in printed} == printed


@catches("indexctl/quotas.py", "if it.full >= above), key", "if above), key")
def test_a_quota_is_near_its_end_from_the_percent_on_that_was_given(month: Month) -> None:
    for task in ("quotas near the end", "quotas from 90 on"):
        assert [(row["name"], row["full"]) for row in month.rows(task)] == [("gamma", 90.0)]
    assert month.rows("quotas above 90") == []


@catches("indexctl/cases.py", 'lacks += [f"an attempt by {it}" for it in MEANS if not case.has(it)]', "lacks += []",
         ("indexctl/cases.py", "earliest = max(now, (now if case.first is None else case.first) + SIX_WEEKS)",
          "earliest = now"), also=["test_a_case_says_what_it_lacks", "test_a_task_is_one_command[a_transfer_too_soon]"])
def test_open_cases_come_with_the_moment_at_which_each_can_be_ready(month: Month) -> None:
    # alpha's six weeks are over, and omega's are not; a transfer of neither gets as far as the year
    seen = [(row["name"], row["sent"], row["year"], row["earliest"] - month.began > 20 * DAY)
            for row in month.rows("the open cases")]
    assert seen == [("alpha", 2, "unknown", False), ("omega", 1, "unknown", True)]


def test_a_case_says_what_it_lacks(month: Month) -> None:
    assert month.rows("the open cases")[0]["lacks"] == ["1 more attempt sent", "an attempt by pages"]


def test_the_year_is_seen_without_a_transfer(month: Month) -> None:
    first = month.rows("the cases with an attempt more")[0]
    assert (first["name"], first["year"], first["ready"]) == ("alpha", "over", True)


@catches("indexctl/commands/listings.py", 'if row.case else ""}, lambda row: row.given)',
         'if row.case else ""}, lambda row: {**row.given, "owners": []})',
         ("indexctl/commands/listings.py", "rows = [OwnedRow(it.name, len(it.owners) == 1, it.owners, it.charge,",
          "rows = [OwnedRow(it.name, True, it.owners, it.charge,"), also=["test_what_a_user_owns_alone_is_marked"])
def test_who_shows_owners_as_the_index_gives_them(month: Month) -> None:
    held, free = month.rows("who owns a name")
    assert (held["name"], held["state"], held["owners"]) == ("beta", "held", ["ann", "bob", "cibuild"])
    assert free == {"name": "nobody-has-this", "state": "free"}


def test_what_a_user_owns_alone_is_marked(month: Month) -> None:
    assert sorted(row["name"] for row in month.rows("what a user owns") if row["alone"]) == ["delta", "spam-nest"]
