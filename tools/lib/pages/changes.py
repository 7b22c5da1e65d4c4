"""The sections of CHANGELOG.md: how each begins, and how long it may be."""
from __future__ import annotations

import re
from typing import Iterator

from pages.files import read
from releases import sections
from trial import Trial

PAGE = "CHANGELOG.md"
USER, OPERATOR = "### What is new for you, as a user", "### What you do first, as an operator"
MOST_WORDS, MOST_LINES = 1_500, 5
BEGINNING = re.compile(rf"{re.escape(USER)}\n\n((?:\d+\. .+\n)+)\n{re.escape(OPERATOR)}\n\n1\. ")


def faults(version: str, text: str) -> Iterator[str]:
    """What is wrong with the section of a version."""
    found = BEGINNING.match(text)
    if not found:
        yield f"{version} does not begin with '{USER}', numbered lines, '{OPERATOR}' and numbered lines"
    elif found[1].count("\n") > MOST_LINES:
        yield f"{version} has {found[1].count(chr(10))} lines for a user: say the {MOST_LINES} that most users read"
    words = len(text.split())
    if words > MOST_WORDS:
        yield f"{version} has {words:,} words, and may have {MOST_WORDS:,}: say what a reader has to do or can do now"


def check_changes(trial: Trial) -> None:
    found = sections(read(PAGE))
    trial.check(f"{PAGE} has sections", found, "none of them is found")
    for version, _, text in found:
        wrong = list(faults(version, text))
        trial.check(f"{PAGE}: {version} begins with what is new, and is short", not wrong, "; ".join(wrong))
