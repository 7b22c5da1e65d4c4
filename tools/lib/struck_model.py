"""The plain model of the rules (tests/support/model) with a refusal struck: its histories, and how it answers the
transcripts of crates/index_request_tests."""
from __future__ import annotations

import copy
import hashlib
import json
import random
import re
from collections.abc import Callable, Iterator
from contextlib import contextmanager
from typing import Any, NamedTuple, Optional
from unittest.mock import patch

from plain_model import choice, formats, rules, tables_of_model, texts_of_requests
from strikes import Strike

# what a rule meets that an earlier refusal kept away from it
UNMET = AttributeError, KeyError, TypeError, IndexError, ValueError
# how many requests a run asks, and how often one is of a kind that the refusal is struck of, or by any user
ASKED, OF_THE_STRUCK, BY_ANYBODY = 120, 0.25, 0.3
# few and short values, so that a history can be read, and an upload's bytes, of which a line shows so many
FEW: dict[str, Any] = {"NAMES": (("frob",), ("egg", "2")), "REQUIRES": ("",), "REASONS": ("", "broken"),
                       "CASE_TEXTS": ("mail",)}
MOST_SHOWN = 40
TEXT = re.compile(r'const (\w+): &str = r#"\n(.*?)"#;', re.S)
# a test, texts of it that are made by `repeated`, and the list of its texts
TEST = re.compile(r"^fn (\w+)\(rt: HostRuntime\) \{\n(.*?)^\}", re.M | re.S)
REPEATED = re.compile(r"let (\w+) = repeated\(&rt, (\w+), ([\d_]+)\);")
LISTED = re.compile(r"\[((?:\w+(?:\.as_str\(\))?[,\s]*)+)\]")
Step = tuple[int, str, dict[str, Any]]


class Entry(NamedTuple):
    """An accepted call, the user who made it, the name that it is about, and the tables before and after it."""
    step: Step
    actor: str
    name: Optional[str]
    before: Any
    after: Any

    @property
    def do(self) -> str:
        return str(self.step[2]["do"])


def number_of(refusal: str) -> int:
    return int(next(number for number, name in rules.NAME_OF.items() if name == refusal))


@contextmanager
def without(strike: Optional[Strike]) -> Iterator[None]:
    """The rules with the refusal struck. As in those of the proofs, a question on what is not there is answered no."""
    def guarded(ask: Callable[[Any], bool], number: int) -> Callable[[Any], bool]:
        def asked(call: Any) -> bool:
            if strike and number == struck and strike.do in (None, call.do):
                return False
            try:
                return bool(ask(call))
            except UNMET:
                return False
        return asked

    struck = number_of(strike.refusal) if strike else 0
    applies = {number: guarded(ask, number) for number, ask in rules.APPLIES.items()}
    already = {do: guarded(ask, 0) for do, ask in rules.ALREADY.items()}
    with patch.dict(rules.APPLIES, applies), patch.dict(rules.ALREADY, already), patch.multiple(choice, **FEW):
        yield


def answer(tables: Any, step: Step) -> tuple[object, Optional[Entry]]:
    """The answer to a call, and its entry if it was accepted. The model has no effect for some calls that only a struck
    refusal lets through: then nothing changes, and the answer is None."""
    at, token, asked = step
    before = copy.deepcopy(tables)
    call = rules.Call(tables, at, token, asked)
    try:
        came = rules.answer(call)
    except UNMET:
        tables.__dict__.update(before.__dict__)
        return None, None
    if came != "accepted":
        return came, None
    return came, Entry(step, call.caller or "nobody", call.name, before, copy.deepcopy(tables))


def history_of(steps: list[Step]) -> list[Entry]:
    """The entries that come of calls: those of them that are accepted, one after the other."""
    tables = tables_of_model.Tables()
    return [made for step in steps for made in [answer(tables, step)[1]] if made]


class Run:
    """A run of requests chosen at random by the struck rules, until a law's words are broken."""

    def __init__(self, seed: int, kinds: list[str]):
        self.random, self.kinds, self.tables = random.Random(seed), kinds, tables_of_model.Tables()
        self.chooser, self.entries = choice.Chooser(self.random, self.tables), list[Entry]()

    def step(self) -> Step:
        do = self.random.choice(self.kinds) if self.kinds and self.random.random() < OF_THE_STRUCK else None
        at, token, asked = getattr(self.chooser, do)() if do else self.chooser.request()
        if self.random.random() < BY_ANYBODY:
            token = self.random.choice([*self.chooser.tokens.values()])
        return at, token, asked

    def broken(self, breaks: Callable[[list[Entry]], list[str]]) -> list[str]:
        """The laws that the first entry that breaks one breaks; the entries up to it are kept."""
        for _ in range(ASKED):
            step = self.step()
            # (a token that was set makes a history longer)
            if step[2]["do"] == "standing" or step[2]["do"] == "set_token" not in self.kinds:
                continue
            made = answer(self.tables, step)[1]
            self.chooser.settle()
            if made:
                self.entries.append(made)
                laws = breaks(self.entries)
                if laws:
                    return laws
        return []


def smallest(entries: list[Entry], law: str, breaks: Callable[[list[Entry]], list[str]]) -> list[Entry]:
    """A history as short as leaving out calls makes it, whose last entry breaks the law, and none before it any."""
    def cut(steps: list[Step]) -> Optional[list[Entry]]:
        found = history_of(steps)
        for length in range(1, len(found) + 1):
            laws = breaks(found[:length])
            if laws:
                return found[:length] if law in laws else None
        return None

    size = len(entries) // 2 or 1
    while True:
        for begin in range(len(entries) - size, -1, -size):
            steps = [it.step for it in [*entries[:begin], *entries[begin + size:]]]
            entries = cut(steps) or entries
        if size == 1:
            return entries
        size //= 2


def shown(entries: list[Entry]) -> str:
    """The lines of a history, as `index apply` takes them, but that the bytes of a large file are cut short."""
    lines = [texts_of_requests.line_of(*it.step).decode() for it in entries]
    return "\n".join("  " + re.sub(rf'("hex": "\w{{{MOST_SHOWN}}})\w+', r"\1..", line) for line in lines)


class Transcript(NamedTuple):
    """A test of crates/index_request_tests: its lines, and the answer to each."""
    name: str
    lines: list[bytes]
    answers: list[dict[str, Any]]


def transcripts(common: str, texts: list[str]) -> list[Transcript]:
    """The tests of these files' texts; the first text has what they share."""
    found, shared = [], dict(TEXT.findall(common))
    for text in texts:
        known = {**shared, **dict(TEXT.findall(text))}
        for name, body in TEST.findall(text):
            made = {it: known[of] * int(times) for it, of, times in REPEATED.findall(body)}
            used = re.findall(r"\b(?!as_str)\w+", (LISTED.search(body) or [""])[0])
            if not {*used} <= {*known, *made}:
                continue
            whole = "".join({**known, **made}[it] for it in used)
            spelled = re.sub(r"<(\w*)>", lambda it: hashlib.sha256(it[1].encode()).hexdigest(), whole)
            rows = [it for it in spelled.split("\n") if it and it[0] != "#"]
            answers = [json.loads(it[2:]) for it in rows if it.startswith("= ")]
            found.append(Transcript(name, [it.encode() for it in rows if not it.startswith("= ")], answers))
    return found


def differs(transcript: Transcript) -> bool:
    """Whether the model answers otherwise than the transcript says."""
    tables = tables_of_model.Tables()
    for line, wanted in zip(transcript.lines, transcript.answers):
        before = copy.deepcopy(tables)
        try:
            if json.loads(formats.line_answer(tables, line)) != wanted:
                return True
        except UNMET:
            tables.__dict__.update(before.__dict__)
            return True
    return False
