"""The table of docs/operators/SCALING.md follows from the figures beside it, and these from what was measured."""
from __future__ import annotations

import math
import re

from support.places import TOP
from support.planted import catches

MIB, GIB, GBIT = 1 << 20, 1 << 30, 10 ** 9 / 8
# what the page says of a start, the network and the users that it reckons with, and what it says of nginx
SAID = re.compile(
    r"time: (\d+) s for each GiB, (\d+) s for each million files, and half a second for the log.*?"
    r"about (\d+) bytes for each file.*?nginx with (\d+) Gbit/s.*?"
    r"installs (\d+) packages of 1 MiB (\d+) times a day, a fifth of them in one hour.*?"
    r"([\d,]+) pages and ([\d,]+) files\S+ a second, .*? ([\d,]+) users for each Gbit/s", re.DOTALL)
ROW = re.compile(r"^\| ([\d,]+) \| ([\d,]+) \| (\d+) \| (\d+) \|$", re.MULTILINE)


def page(name):
    with open(f"{TOP}/docs/operators/{name}.md", encoding="utf-8") as kept:
        return kept.read()


def number(text):
    return float(text.replace(",", ""))


def said():
    found = SAID.search(page("SCALING"))
    assert found
    return [number(it) for it in found.groups()]


def users_of_nginx():
    """How many users an nginx serves by its rates, and by one Gbit/s of its network. Each user installs in the busiest
    hour a fifth of what a day has."""
    *_, packages, times, pages, files, _ = said()
    an_hour = times / 5 / 3600
    return 1 / (packages / pages + packages / files) / an_hour, GBIT / (packages * MIB) / an_hour


def test_the_rates_are_those_of_the_last_measurement(looked):
    """Within a fifth, by which they differ from run to run."""
    *_, pages, files, _ = said()
    for start, told in (("page of 100 files, 21,837 bytes, gzip as pip asks", pages),
                        ("file of 1,048,576 bytes", files)):
        row, = [it for it in page("PERFORMANCE").splitlines() if it.startswith(f"| {start} |")]
        measured = number(row.split(" | ")[2].split()[0])
        looked(abs(told / measured - 1) < 0.2, start, told, measured)


def test_the_network_of_an_nginx_is_the_limit_as_the_page_says(looked):
    (*_, gigabits, _, _, _, _, told), (by_rates, by_gigabit) = said(), users_of_nginx()
    looked(by_gigabit * gigabits < by_rates, by_gigabit, by_rates)
    looked(0.9 < told / by_gigabit <= 1, told, by_gigabit)


@catches("docs/operators/SCALING.md", "| 100,000 | 100 | 2 | 3 |", "| 100,000 | 100 | 3 | 3 |")
@catches("docs/operators/SCALING.md", "| 500,000 | 1,000 | 14 | 14 |", "| 500,000 | 1,000 | 14 | 10 |")
def test_each_row_has_the_start_and_as_many_nginx_as_its_figures_make(looked):
    of_gib, of_million, of_file, gigabits, *_ = said()
    _, by_gigabit = users_of_nginx()
    rows = ROW.findall(page("SCALING"))
    looked(len(rows) == 3, rows)
    for users, size, seconds, nginx in ([number(it) for it in row] for row in rows):
        files = size * 10 ** 9 / MIB
        looked(seconds == round(files * (of_million / 10 ** 6 + of_gib * of_file / GIB) + 0.5), size, seconds)
        looked(nginx == math.ceil(users / (by_gigabit * gigabits)), users, nginx)
