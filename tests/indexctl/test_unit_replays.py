"""Which lines of a record and of nginx's log are asked for again, and what a replay says of them."""
from __future__ import annotations

import dataclasses
import json
import signal

import pytest
from indexctl import replays
from indexctl.commands import work
from indexctl.ends import Stop
from indexctl.terminal import say_row
from support.indexctl.rows import args, case_of, held
from support.planted import catches

URL, ME = "https://packages.example", "01234567"


def line(do="claim", caller=ME, index=URL, **row):
    return replays.Line(1, 10, caller, index, {"do": do, "name": "frob", **row})


@pytest.mark.parametrize("one, is_office, why", [
    (line(), False, ""), (line(), True, ""), (line(do="upload"), True, "its bytes are needed"),
    (line(index="https://other"), True, "it was asked of https://other"), (line(index=None), False, ""),
    (line(**{"for": "bob"}), True, "it was asked for as bob: use `indexctl user leave bob` again"),
    (line(caller="other"), True, "another caller asked for it (other)"), (line(caller=""), True, "another caller"),
    (line(do="prohibit", caller=None), True, ""), (line(do="prohibit", caller=None), False, "an owner or a user"),
    (line(caller=None), True, "an owner or a user")])
def test_a_line_is_left_if_somebody_else_has_to_repeat_it(one, is_office, why):
    found = replays.why_left(one, URL, ME, is_office)
    assert found.startswith(why) and bool(found) == bool(why)


@pytest.mark.parametrize("do", ["add_user", "set_token", "set_quota", "prohibit", "allow", "ban_file",
                                "record_attempt", "transfer", "close_case"])
def test_the_office_repeats_its_own_requests_of_nginx_s_log(do):
    assert replays.why_left(line(do=do, caller=None), URL, ME, True) == ""


class FakeDesk:
    """Says of each change whether it is so now."""

    def __init__(self, is_done=True, fails_at=None):
        self.asked, self.is_done, self.fails_at, self.refused = [], is_done, fails_at, 0
        self.again, self.case, self.index = [], None, self

        class setting:
            url = URL
        self.setting, self.is_json = setting, False

    def say(self, text, row=None):
        say_row(self.is_json, text, row)

    def token(self):
        return "office"

    def caller(self):
        return "office"

    def status(self):
        return 0

    def change(self, what, row, token=None, more=None):
        if len(self.asked) == self.fails_at:
            raise Stop(3, "The index does not answer now.")
        self.again.append(more)
        self.asked.append((what, row))
        if row["do"] == "record_attempt":
            self.count(row)
        return self.is_done

    def count(self, row):
        case = self.case
        if case:
            more = {"attempts": case.attempts + 1, "sent": case.sent + row["sent"], row["means"]: True}
            self.case = dataclasses.replace(case, **more)

    def delete(self, file, more=None):
        self.again.append(more)
        self.asked.append(("delete", file))
        return self.is_done


def test_a_line_is_asked_for_as_it_was(capsys):
    desk = FakeDesk()
    replays.replay_line(desk, line(do="add_owner", user="bob"))
    assert desk.asked == [("line 1: add_owner frob bob", {"do": "add_owner", "name": "frob", "user": "bob"})]
    replays.replay_line(desk, line(do="delete", file="a-1.tar.gz"))
    assert desk.asked[1] == ("delete", "a-1.tar.gz") and capsys.readouterr().err == ""
    assert desk.again == 2 * [{"again": "1970-01-01T00:00:10Z"}]


@pytest.mark.parametrize("is_done, said", [(True, "the attempt counts from now on, not from 1970-01-01 00:00 UTC"),
                                           (False, "")])
def test_an_attempt_counts_from_now_on_if_it_was_accepted(capsys, is_done, said):
    replays.replay_line(FakeDesk(is_done), line(do="record_attempt", means="pages", sent=True))
    told = capsys.readouterr().err
    assert said in told and bool(told) == bool(said)


@pytest.mark.parametrize("is_done, said", [(False, "indexctl name prohibit frob` keeps all files"), (True, "")])
def test_a_ban_that_can_t_be_repeated_says_what_to_do_meanwhile(capsys, is_done, said):
    replays.replay_line(FakeDesk(is_done), line(do="ban_file", file="frob-1.0.tar.gz"))
    told = capsys.readouterr().err
    assert said in told and bool(told) == bool(said)


@pytest.fixture
def replayed(monkeypatch, tmp_path):
    """Replays lines at these seconds from a moment on, and gives what was asked for."""
    def run(seconds, desk=None, **given):
        desk = desk or FakeDesk()
        record, ours = tmp_path / "record", work.sha256("office")[:8]
        record.write_text("".join(json.dumps({"at": f"1970-01-01T00:00:{at:02}Z", "caller": ours, "do": "claim",
                                              "name": f"at{at}"}) + "\n" for at in seconds))
        monkeypatch.setattr(work, "Desk", lambda _: desk)
        work.replay(args(**{"file": str(record), "since": "1970-01-01T00:00:10Z", "first": 1, "caller": None,
                            "dry_run": False, **given}))
        return [row["name"] for _, row in desk.asked]
    return run


def test_the_second_of_the_backup_is_asked_for_again(replayed):
    assert replayed([9, 10, 11]) == ["at10", "at11"]


def test_a_replay_goes_on_at_the_line_that_was_given(replayed):
    assert replayed([10, 11, 12], first=2) == ["at11", "at12"]


def test_a_dry_run_asks_for_nothing(replayed, capsys):
    assert replayed([10, 11], dry_run=True) == []
    assert "line 2: " in capsys.readouterr().out


def test_another_caller_s_lines_can_be_asked_for(replayed, capsys):
    assert replayed([10], caller="other") == []
    assert "another caller asked for it" in capsys.readouterr().err


def test_a_replay_that_breaks_off_says_at_which_line(replayed):
    with pytest.raises(Stop, match="^line 2: The index does not answer now. Go on by --from 2, or the line") as end:
        replayed([10, 11, 12], FakeDesk(fails_at=1))
    assert end.value.status == 3


def test_a_replay_counts_what_was_asked_for_and_what_was_left(replayed, capsys):
    replayed([10, 11])
    assert "2 lines of yours, 0 left, 0 refusals" in capsys.readouterr().out


def attempt(number, means="pages", sent=True, at=None, **more):
    return replays.Line(number, number if at is None else at, ME, URL,
                        {"do": "record_attempt", "name": "Frob", "means": means, "sent": sent}, **more)


def left(case, lines, first=1, since=1):
    """The numbers of these lines that are not asked for, if the name has this case before the replay."""
    desk = FakeDesk()
    desk.case = case
    attempts, numbers = replays.Attempts(desk, lines, since), []
    for it in replays.lines_since(lines, since, first):
        if attempts.why_left(it):
            numbers.append(it.number)
        else:
            replays.replay_line(desk, it)
    return numbers


@pytest.fixture(autouse=True)
def standings(monkeypatch):
    """A name's standing is that at the desk."""
    monkeypatch.setattr(replays, "find_standing", lambda desk, name: held(name, case=desk.case))


def of(attempts, sent, *means, opened=0):
    return case_of(opened=opened, attempts=attempts, sent=sent, **{it: it in means for it in
                                                                   ("profile", "author", "pages")})


THREE = [attempt(1, "profile"), attempt(2, "author"), attempt(3, "pages", sent=False)]


@pytest.mark.parametrize("case, numbers", [
    (of(0, 0), []), (of(1, 1, "profile"), [1]), (of(2, 2, "profile", "author"), [1, 2]),
    (of(3, 2, "profile", "author", "pages"), [1, 2, 3]), (of(9, 9, "profile", "author", "pages"), [1, 2, 3]),
    (None, [])])
def test_an_attempt_that_the_case_counts_already_is_left(case, numbers):
    assert left(case, THREE) == numbers


def test_no_case_counts_an_attempt_by_other_means():
    assert not replays.is_counted(of(9, 9, "profile", "author", "pages"), [attempt(1, "post")])


def test_an_attempt_is_asked_for_if_none_of_the_case_was_made_so():
    """Others of the office have records of their own: the case may have more attempts than this record."""
    assert left(of(1, 1, "pages"), THREE) == [] and left(of(1, 0, "profile"), THREE) == []


def test_behind_an_attempt_that_is_not_counted_none_is():
    lines = [attempt(1, "profile"), attempt(2, "author"), attempt(3, "profile")]
    assert left(of(3, 3, "author"), lines) == []


def test_attempts_of_an_earlier_case_of_the_name_do_not_count():
    lines = [attempt(at, "pages") for at in range(1, 5)]
    assert left(of(1, 1, "pages", opened=3), lines, since=3) == [3]


def test_attempts_of_a_case_that_was_opened_again_are_those_since_the_backup():
    lines = [attempt(at, "pages") for at in range(1, 5)]
    assert left(of(0, 0, opened=50), lines, since=3) == []
    assert left(of(1, 1, "pages", opened=50), lines, since=3) == [3]


def test_other_changes_and_other_names_are_not_attempts_of_the_case():
    other = dataclasses.replace(attempt(1), row={**attempt(1).row, "name": "other"})
    claim = replays.Line(2, 2, ME, URL, {"do": "claim", "name": "frob"})
    assert left(of(1, 1, "pages"), [other, claim, attempt(3), attempt(4)]) == [1, 3]


def test_what_a_replay_added_to_the_record_is_not_asked_for_again():
    copies = [attempt(4, "profile", again=1), attempt(5, "author", again=2)]
    assert left(of(2, 2, "profile", "author"), [*THREE, *copies]) == [1, 2]
    assert [it.number for it in replays.lines_since([*THREE, *copies], 1, 1)] == [1, 2, 3]
    # the backup was made behind the first lines, and before they were asked for again
    assert [it.number for it in replays.lines_since([*THREE, *copies], 3, 1)] == [3, 4, 5]


def test_an_attempt_that_is_left_says_why_and_what_to_do(replayed, capsys, monkeypatch):
    desk = FakeDesk()
    desk.case = of(1, 1, "pages")
    monkeypatch.setattr(work, "read_lines", lambda _: [
        replays.Line(7, 10, work.sha256("office")[:8], None, attempt(7).row)])
    assert replayed([], desk) == []
    out = capsys.readouterr()
    assert "line 7 is left, the case of frob has 1 attempt, and seems to count this one" in out.err
    assert "`indexctl case attempt frob pages`" in out.err and "0 lines of yours, 1 left" in out.out


@pytest.mark.parametrize("end", ["SIGINT", "SIGHUP", "SIGTERM"])
def test_a_replay_that_is_interrupted_says_at_which_line(replayed, capsys, end):
    class Interrupted(FakeDesk):
        def change(self, what, row, token=None, more=None):
            if len(self.asked) == 1:
                signal.raise_signal(number)
            return super().change(what, row, token, more)

    def unseen(*_):
        raise AssertionError(f"nothing took {end}")
    number = getattr(signal, end)
    before = signal.signal(number, signal.default_int_handler if end == "SIGINT" else unseen)
    try:
        with pytest.raises(KeyboardInterrupt):
            replayed([10, 11, 12], Interrupted())
    finally:
        signal.signal(number, before)
    assert capsys.readouterr().err.endswith("Go on by --from 2, or the line after it.\n")


@catches("indexctl/replays.py", "and it.again is None and not it.unanswered] + [line]",
         "and it.again is None] + [line]")
def test_an_attempt_without_an_answer_is_not_taken_for_one_that_was_made():
    """The case has the first and the third, so the third is left: asked for once more it would count twice."""
    desk, lines = FakeDesk(), [attempt(1), attempt(2, unanswered=502), attempt(3)]
    desk.case = of(2, 2, "pages")
    assert replays.Attempts(desk, lines, 1).why_left(lines[2]).startswith("the case of frob has 2 attempts")
