"""The plot of the rates in docs/operators/PERFORMANCE.md and in the last run of bench/bench: docs/operators/rates.svg,
a bar for each."""
from __future__ import annotations

import re
from html import escape
from typing import Iterator

from pages.files import read

PAGE, LAST_RUN, PLOT = "docs/operators/PERFORMANCE.md", "bench/README.md", "docs/operators/rates.svg"
TABLE = re.compile(r"^\| Requests a second \|(.*)\|\n\|[-:| ]+\|\n((?:\|.*\n)+)", re.M)
RUN = re.compile(r"^(\w[\w-]*) {2,}(.*): requests a second, .*\n((?: +\S.*\n)+)", re.M)
BAR = re.compile(r"^ +(\S+) ([\d,]+) \(", re.M)
NUMBER = re.compile(r"\d[\d,]*(?:\.\d+)?")
WIDTH, LEFT, RIGHT, HEAD, STEP, BAR_HEIGHT = 720, 170, 90, 30, 22, 14


def cells(line: str) -> list[str]:
    return [cell.strip().replace("`", "") for cell in line.strip().strip("|").split("|")]


def measured() -> str:
    """The two pages that have rates, one after the other."""
    return read(PAGE) + read(LAST_RUN)


def rates_of(page: str) -> Iterator[tuple[int, str, list[tuple[str, float]]]]:
    """Each row of bars: where it stands, what was asked for, and the rate of each server."""
    for found in TABLE.finditer(page):
        servers = cells(found[1])
        for line in found[2].splitlines():
            what, *figures = cells(line)
            rates = [(server, NUMBER.match(figure)) for server, figure in zip(servers, figures)]
            yield found.start(), what, [(server, float(it[0].replace(",", ""))) for server, it in rates if it]
    for found in RUN.finditer(page):
        what = found[2] if found[1] in found[2] else f"{found[1]}: {found[2]}"
        yield found.start(), what, [(it[1], float(it[2].replace(",", ""))) for it in BAR.finditer(found[3])]


def drawn(page: str) -> str:
    """The plot, as SVG."""
    rows = [(what, rates) for _, what, rates in sorted(rates_of(page), key=lambda it: it[0]) if rates]
    lines: list[str] = []
    y = 0
    for what, rates in rows:
        y += HEAD
        lines.append(f'<text x="10" y="{y - 8}" font-weight="bold">{escape(what)}</text>')
        most = max(rate for _, rate in rates)
        for server, rate in rates:
            length = (WIDTH - LEFT - RIGHT) * rate / most if most else 0
            color = "#1b6ca8" if server.startswith("index") else "#9aa5b1"
            lines.append(f'<text x="{LEFT - 8}" y="{y + 11}" text-anchor="end">{escape(server)}</text>')
            lines.append(f'<rect x="{LEFT}" y="{y}" width="{length:.1f}" height="{BAR_HEIGHT}" fill="{color}"/>')
            lines.append(f'<text x="{LEFT + length + 6:.1f}" y="{y + 11}">{rate:,.0f}</text>')
            y += STEP
    head = (f'<svg xmlns="http://www.w3.org/2000/svg" width="{WIDTH}" height="{y + 10}" viewBox="0 0 {WIDTH} {y + 10}" '
            'font-family="sans-serif" font-size="12" fill="#222222">')
    ground = '<rect width="100%" height="100%" fill="#ffffff"/>'
    return "\n".join([head, "<title>Requests a second</title>", ground, *lines, "</svg>\n"])
