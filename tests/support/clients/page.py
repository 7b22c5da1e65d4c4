"""The recipes of docs/users/USING.md: each block of that page, with its caption, which says whether it is tested."""
from __future__ import annotations

import re
from dataclasses import dataclass

CAPTION = re.compile(r"\*\*(?P<name>[^*]+)\*\*(?:, in `(?P<path>[^`]+)`)? · (?P<how>tested|not tested)")
FENCE = re.compile(r"```(\w*)")


@dataclass(frozen=True)
class Recipe:
    """One block: its name, the file that it stands for (or nothing, if it is a command), and its text."""
    name: str
    path: str
    is_tested: bool
    text: str


def read_recipes(path: str) -> tuple[dict[str, Recipe], list[int]]:
    """The recipes of a page by name, and the lines at which a block has no caption or a name that was there before."""
    recipes: dict[str, Recipe] = {}
    wrong: list[int] = []
    with open(path, encoding="utf-8") as page:
        lines = page.read().split("\n")
    at = 0
    while at < len(lines):
        fence = FENCE.fullmatch(lines[at])
        if not fence:
            at += 1
            continue
        caption = CAPTION.fullmatch(next((it for it in reversed(lines[:at]) if it), ""))
        end = lines.index("```", at + 1)
        if not caption or caption["name"] in recipes:
            wrong.append(at + 1)
        else:
            text = "\n".join(lines[at + 1:end]) + "\n"
            recipes[caption["name"]] = Recipe(caption["name"], caption["path"] or "", caption["how"] == "tested", text)
        at = end + 1
    return recipes, wrong
