"""The refusals of the rules (crates/index_rules/specs/Verdict.antt), and the rules with one of them struck.

A refusal is struck where `applies` says when it applies: there it never does, so the lists of refusals stay as they
are, and the proofs that only pass through it hold. Each right (NotOffice, NotOwner) is struck of one request alone."""
from __future__ import annotations

import re
from typing import NamedTuple, Optional

VERDICT, RIGHTS = "specs/Verdict.antt", ("NotOffice", "NotOwner")
# tests of refusals that no transcript meets as text: what each asks is too long
BY_HAND = {"TooLarge": "a_body_has_at_most_sixteen_mebibytes"}
# the table of refusals of requests, and the line of `applies` of one refusal, which may go on below it
ROW = re.compile(r"^refusals_of (\(.*?\)) =\s+(.*?)(?=^\w|^--|\Z)", re.M | re.S)
FILE_ROW = re.compile(r"^file_refusals = (.*)$", re.M)
LINE = re.compile(r"^(applies at request facts (\w+) =)((?: .*\n)+(?: {4}.*\n)*)", re.M)
APPLIES = "-- whether a refusal applies to a request at a moment\n"
EXEMPT = """-- whether this request is not the one that the refusal is struck of
abbrev pub is_not_exempt : Request → Bool
is_not_exempt {pattern} = false
is_not_exempt request = true

"""


class Strike(NamedTuple):
    """A refusal that is struck: of one request, by its name in `do`, or wherever it stands."""
    refusal: str
    do: Optional[str] = None

    def shown(self) -> str:
        return f"{self.refusal} of {self.do}" if self.do else self.refusal


def name_in_lines(variant: str) -> str:
    """The name in `do` of a request, by that of its variant, such as add_user of AddUser."""
    return re.sub(r"(?<=[a-z])(?=[A-Z])", "_", variant).lower()


def rows(text: str) -> dict[str, tuple[str, list[str]]]:
    """By the name of a request, the pattern that takes it apart and its refusals, least first."""
    files = re.findall(r"\b[A-Z]\w+", (FILE_ROW.search(text) or [""])[0])
    found = {}
    for pattern, listed in ROW.findall(text):
        refusals = re.findall(r"\b[A-Z]\w+", listed) + (files if "file_refusals" in listed else [])
        found[name_in_lines(re.findall(r"\w+", pattern)[0])] = pattern, refusals
    return found


def strikes(text: str) -> list[Strike]:
    """All of them, in the order of the refusals' numbers; of a right one for each request that it guards."""
    found = []
    for _, refusal, _ in LINE.findall(text):
        guarded = [do for do, (_, refusals) in rows(text).items() if refusal in refusals]
        found += [Strike(refusal, do) for do in guarded] if refusal in RIGHTS else [Strike(refusal)]
    return found


def struck(text: str, strike: Strike) -> str:
    """The text of Verdict.antt with a refusal struck."""
    line = next(it for it in LINE.finditer(text) if it[2] == strike.refusal)
    if not strike.do:
        return f"{text[:line.start()]}{line[1]} false\n{text[line.end():]}"
    comes = f"{line[1]} is_not_exempt request && ({' '.join(line[3].split())})\n"
    text = text[:line.start()] + comes + text[line.end():]
    pattern = rows(text)[strike.do][0]
    return text.replace(APPLIES, EXEMPT.format(pattern=pattern) + APPLIES)


def share_of(found: list[Strike], share: Optional[tuple[int, int]]) -> list[Strike]:
    """Every n-th of them, from the k-th on, of a share (k, n); a k above n goes round."""
    return found if share is None else found[(share[0] - 1) % share[1]::share[1]]


def laws_of(said: str) -> dict[str, bool]:
    """By its name, whether a law is proved, by what a check printed."""
    return {law: how == "proved" for law, how in re.findall(r"^fn index_rules::laws::(\w+): (\w+)", said, re.M)}
