"""Writes what the gate took into PROOF-COSTS: `python3 costs.py` reads the lines that `.ci/run` prints at its
end, of each part by the clock and of the processors."""
from __future__ import annotations

import datetime
import os
import re
import subprocess
import sys

sys.dont_write_bytecode = True
sys.path.insert(0, os.path.join(os.path.dirname(os.path.realpath(__file__)), ".."))
from pages.files import read, write
from top import TOP

PAGE = "docs/developers/PROOF-COSTS.md"
TABLE = re.compile(r"(<!-- written by \.ci/run --write -->\n).*?\n\n", re.S)
PART = re.compile(r"(\S+) +([\d.]+) min, +([\d.]+) of processors")


def table_of(lines: str) -> str:
    """The table of these parts.."""
    rows = [(name, float(clock), float(taken)) for name, clock, taken in PART.findall(lines)]
    if not rows:
        raise SystemExit("costs: no line tells what a part took")
    commit = subprocess.run(["git", "-C", TOP, "rev-parse", "--short", "HEAD"], stdout=subprocess.PIPE, text=True,
                            check=True).stdout.strip()
    head = [f"| {commit}, {datetime.date.today()}, {os.cpu_count()} processors | Minutes | Of processors |",
            "|---|---|---|"]
    return "\n".join([*head, *(f"| {name} | {clock:.1f} | {taken:.1f} |" for name, clock, taken in rows)])


def main() -> None:
    page = read(PAGE)
    if not TABLE.search(page):
        raise SystemExit(f"costs: {PAGE} has no place for the table")
    write(PAGE, TABLE.sub(lambda found: f"{found[1]}{table_of(sys.stdin.read())}\n\n", page))


main()
