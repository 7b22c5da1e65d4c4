"""How tools/try-rules strikes a refusal out of the rules, and finds what notices it, but for the prover."""
from __future__ import annotations

import glob
import re

import pytest
from support.model import rules as rules_of_model
from support.places import TOP
from support.planted import catches
from support.programs import program_of

rules = program_of(f"{TOP}/tools/try-rules")
import law_words
import strikes
import struck_model

TEXT = rules.read(f"{TOP}/crates/index_rules/{strikes.VERDICT}")
ALL = strikes.strikes(TEXT)
KNOWN = struck_model.transcripts(rules.read(f"{rules.TRANSCRIPTS}.rt"),
                                 [rules.read(it) for it in sorted(glob.glob(f"{rules.TRANSCRIPTS}/*.rt"))])
DELETE, TOO_LARGE = strikes.Strike("NotOwner", "delete"), strikes.Strike("TooLarge")


def refused(text: str, refusal: str) -> str:
    """The line of `applies` of a refusal."""
    return next(it for it in text.split("\n") if it.startswith(f"applies at request facts {refusal} ="))


def test_each_refusal_of_the_page_is_struck_and_each_right_of_each_request() -> None:
    page = rules.read(f"{TOP}/docs/reference/REQUESTS.md")
    assert {it.refusal for it in ALL} == {*re.findall(r"\b\d{1,2} ([A-Z]\w+)\b", page)} - {"December"}
    assert len({it.refusal for it in ALL}) == 35 and len(ALL) == 50
    asked = dict(re.findall(r"^\| (\w+): .*? \| ((?:\d+ ?)+)\|", page, re.M))
    rights = {(do, name) for do, row in asked.items() for number, name in (("3", "NotOffice"), ("18", "NotOwner"))
              if number in row.split()}
    assert {(it.do, it.refusal) for it in ALL if it.do} == rights and len(rights) == 17


def test_shares_have_each_strike_once() -> None:
    parts = [strikes.share_of(ALL, (turn, 8)) for turn in range(1, 9)]
    assert sorted(sum(parts, [])) == sorted(ALL) and strikes.share_of(ALL, (9, 8)) == parts[0]


def test_a_struck_refusal_never_applies_and_a_right_does_to_other_requests() -> None:
    assert refused(strikes.struck(TEXT, TOO_LARGE), "TooLarge").endswith("= false")
    struck = strikes.struck(TEXT, DELETE)
    assert "is_not_exempt (Delete file) = false\nis_not_exempt request = true\n" in struck
    assert refused(struck, "NotOwner").endswith("= is_not_exempt request && (not facts.owns)")
    # nothing else changes
    for text in (strikes.struck(TEXT, TOO_LARGE), struck):
        assert {it.split(" = ")[0] for it in TEXT.split("\n")} <= {it.split(" = ")[0] for it in text.split("\n")}


def test_laws_are_told_by_name() -> None:
    said = "fn index_rules::laws::one: proved\nfn index_rules::laws::other: no proof: expected answers\nonly=2\n"
    assert strikes.laws_of(said) == {"one": True, "other": False}


def test_the_model_answers_each_transcript_and_no_more_once_its_refusal_is_struck() -> None:
    names = {it.name for it in KNOWN}
    assert len(names) >= 40 and {"deletes_are_refused", "a_case_has_at_most_a_thousand_attempts"} <= names
    with struck_model.without(None):
        assert [it.name for it in KNOWN if struck_model.differs(it)] == []
    with struck_model.without(DELETE):
        assert [it.name for it in KNOWN if struck_model.differs(it)] == ["deletes_are_refused"]


def test_a_test_that_is_named_by_hand_is_there() -> None:
    for refusal, name in strikes.BY_HAND.items():
        code = [rules.read(it) for it in glob.glob(f"{TOP}/crates/*_tests/src/**/*.rt", recursive=True)]
        assert any(f"fn {name}(rt: HostRuntime)" in it and refusal in it for it in code)


def test_histories_by_the_rules_break_no_law() -> None:
    with struck_model.without(None):
        for seed in range(2):
            run = struck_model.Run(seed, [])
            assert run.broken(law_words.breaks) == [] and len(run.entries) > 10


# by a right, the most calls of a history that breaks the law without it
SHORT = {DELETE: 4, strikes.Strike("NotOffice", "set_token"): 2, strikes.Strike("TokenTaken"): 3,
         strikes.Strike("DigestMismatch"): 2, strikes.Strike("LastOwner"): 2, strikes.Strike("TooFewAttempts"): 4}


@pytest.mark.slow
@pytest.mark.parametrize("strike", SHORT, ids=strikes.Strike.shown)
def test_a_short_history_breaks_a_law_without_the_refusal(strike: strikes.Strike) -> None:
    kinds = [strike.do] if strike.do else [do for do, (_, its) in strikes.rows(TEXT).items() if strike.refusal in its]
    with struck_model.without(strike):
        found = rules.histories(strike, kinds, 1)
        assert found and all(len(it) <= SHORT[strike] for it in found.values())
        for law, history in found.items():
            assert law in law_words.breaks(history)
            assert not any(law_words.breaks(history[:length]) for length in range(1, len(history)))
    # by the rules it is not legal
    last = next(iter(found.values()))
    assert len(struck_model.history_of([it.step for it in last])) < len(last)


def test_a_right_without_a_law_fails_and_a_limit_with_a_test_does_not(capsys: pytest.CaptureFixture[str]) -> None:
    none = rules.Outcome([], {}, "some_test")
    assert not rules.tell(DELETE, none) and rules.tell(TOO_LARGE, none)
    assert not rules.tell(TOO_LARGE, none._replace(test=None))
    # nor does a law whose proof fails, but whose words nothing breaks, guard a right
    assert not rules.tell(DELETE, none._replace(failing=["law"]))
    assert "FAILED NotOwner of delete: guarded by no law; the test some_test" in capsys.readouterr().out


@catches("tools/try-rules", "{} if failing == [] else ", "", case="failing0-0")
@catches("tools/try-rules", "[*broken] if failing is None else failing", "failing or []", case="None-1")
@pytest.mark.parametrize("failing, searches", [([], 0), (["law"], 1), (None, 1)])
def test_a_history_is_looked_for_only_if_a_proof_fails(monkeypatch: pytest.MonkeyPatch, failing: list[str] | None,
                                                       searches: int) -> None:
    """Or if the prover was not asked."""
    asked: list[object] = []
    monkeypatch.setattr(rules, "histories", lambda *given: asked.append(given) or {"law": []})
    found = rules.outcome(DELETE, TEXT, KNOWN, 1, failing)
    assert (len(asked), found.guards(), found.test) == (searches, ["law"] * searches, "deletes_are_refused")


def test_the_model_is_whole_again_behind_a_strike() -> None:
    before = {**rules_of_model.APPLIES}
    with struck_model.without(DELETE):
        assert rules_of_model.APPLIES != before
    assert rules_of_model.APPLIES == before
