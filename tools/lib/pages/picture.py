"""The picture of the crates in ARCHITECTURE, drawn of crates.txt and of the way of one request there."""
from __future__ import annotations

import os
import re

from pages.files import read
from top import TOP

PAGE = "docs/developers/ARCHITECTURE.md"
PICTURE = re.compile(r"(<!-- drawn by tools/draw-crates -->\n).*?(<!-- drawn up to here -->\n)", re.S)


def stands_on() -> dict[str, list[str]]:
    """For each crate of the repository the crates of the repository that it stands on."""
    lines = [line.partition(":") for line in read("crates.txt").splitlines() if line and not line.startswith("#")]
    names = {name for name, _, _ in lines}
    return {name: [crate for crate in rest.split() if crate in names] for name, _, rest in lines}


def without_detours(below: dict[str, list[str]]) -> dict[str, list[str]]:
    """The same, without the crates that another of them stands on."""

    def reached(name: str) -> set[str]:
        return {name}.union(*(reached(crate) for crate in below[name]))

    def has_detour(crate: str, crates: list[str]) -> bool:
        return any(crate in reached(other) for other in crates if other != crate)

    return {name: [crate for crate in crates if not has_detour(crate, crates)] for name, crates in below.items()}


def steps(page: str) -> dict[str, str]:
    """The steps of the way of one request in which each crate works, by its drawing and its list."""
    found: dict[str, set[str]] = {}
    number = ""
    way = page.partition("## The way of one request")[2].partition("\n## ")[0]
    for line in way.splitlines():
        begun = re.match(r"(?: *│ +)?(\d+)(?:\. |  )", line)
        number = begun[1] if begun else number
        for name in re.findall(r"\b(index\w*)/", line) if number else []:
            found.setdefault(name, set()).add(number)
    return {name: " ".join(sorted(numbers)) for name, numbers in found.items()}


def drawn(below: dict[str, list[str]], way: dict[str, str]) -> list[str]:
    """The lines of the picture: each program with what it stands on, and so no crate of tests."""
    done: set[str] = set()
    lines: list[str] = []

    def draw(name: str, front: str, behind: str) -> None:
        crates = below[name]
        if name in done and crates:
            lines.append(f"{front}({name})")
            return
        done.add(name)
        lines.append(f"{front}{name}  {way.get(name, '')}".rstrip())
        for crate in crates[:-1]:
            draw(crate, f"{behind}├─ ", f"{behind}│  ")
        for crate in crates[-1:]:
            draw(crate, f"{behind}└─ ", f"{behind}   ")

    for name in below:
        if os.path.exists(f"{TOP}/crates/{name}/src/main.rt"):
            draw(name, "", "")
    return lines


def with_picture(page: str) -> str:
    """The page with the picture as it should be."""
    lines = drawn(without_detours(stands_on()), steps(page))
    whole, count = PICTURE.subn(lambda found: "\n".join([f"{found[1]}\n```", *lines, f"```\n\n{found[2]}"]), page)
    if count != 1:
        raise SystemExit(f"{PAGE}: the two comments round the picture do not stand once")
    return whole
