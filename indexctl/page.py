"""The page of the office: one HTML file, made of page.html, page.css and page.js."""
from __future__ import annotations

import base64
import dataclasses
import hashlib
import html
import os
import pkgutil
import re
import string
import urllib.parse
from contextlib import suppress
from itertools import islice, starmap
from typing import Dict, Iterable, Iterator, List, Optional, Sequence, Sized, Tuple, Union

from indexctl.cases import FEWEST_SENT, MEANS, CaseRow, lacks_attempts, ready_text
from indexctl.ends import WRONG, Stop
from indexctl.lookalikes import alike
from indexctl.quotas import HIGH, OwnedName, Overview, QuotaRow, by_fullness
from indexctl.terminal import printable
from indexctl.units import YEAR, counted, due, human, moment

# the HTML of a cell, or that and a number to sort by
Cell = Union[str, Tuple[str, Union[int, str]]]
TOP = 95
# From so many rows on a browser lays out what is in sight alone, which spares most of the time that a search takes; a
# screen reader, too, gets the rest only as it comes into sight. So many rows of a table are one part then.
MANY, MOST_TOGETHER = 1_000, 50
# of names that look alike, so many are shown of a group
MOST_ALIKE = 12
THERE, MISSING, UNKNOWN = ("yes", "✓"), ("no", "–"), ("", "?")


def part_of_page(name: str) -> str:
    """The text of a file of this package, also from within the one file that `build.py` makes."""
    return (pkgutil.get_data("indexctl", name) or b"").decode()


def text_of(value: object) -> str:
    """A text as HTML, in which no character turns the direction of writing."""
    return html.escape(printable(value))


def kind_of(kind: str, rows: Sized) -> str:
    """The class of a list or table of these rows."""
    return f"{kind} many" if len(rows) >= MANY else kind


def none_line(rows: Sized) -> str:
    """The line that shows as long as a part has no rows, or none that are searched for."""
    return f'<p class="none soft"{" hidden" if rows else ""}>None.</p>'


def table_of(kind: str, heads: Sequence[str], rows: Iterable[Sequence[Cell]], inside: Sized) -> Iterator[str]:
    """A table of these rows, and the line that shows if there are none. The style has the columns of each kind. It is
    long by what the rows have `inside`."""
    def cell(head: str, content: Cell) -> str:
        if isinstance(content, str):
            return f'<td role="cell" data-head="{head}">{content}</td>'
        return f'<td role="cell" data-head="{head}" class="number" data-key="{content[1]}">{content[0]}</td>'

    def line(row: Sequence[Cell]) -> str:
        first = f'<th scope="row" role="rowheader">{row[0]}</th>'
        return f'<tr role="row" data-find>{first}{"".join(map(cell, heads[1:], row[1:]))}</tr>\n'
    if inside:
        # rows are no rows of a table for the style, and a browser forgets then what they were unless it is said
        head = "".join(f'<th scope="col" role="columnheader">{it}</th>' for it in heads)
        yield (f'<div class="box"><table role="table" class="{kind_of(kind, inside)}">'
               f'<thead role="rowgroup"><tr role="row">{head}</tr></thead>\n')
        lines = map(line, rows)
        for part in iter(lambda: "".join(islice(lines, MOST_TOGETHER)), ""):
            yield f'<tbody role="rowgroup">\n{part}</tbody>'
        yield "</table></div>"
    yield none_line(inside)


def due_of(row: CaseRow, now: int) -> Tuple[int, str]:
    """When something is due in a case, and what."""
    name = text_of(row.name)
    case = f'<a href="#case-{name}">{name}</a>'
    if row.ready:
        what = f"look at the owner’s home page, then <code>indexctl case transfer {name} --quiet</code>"
        return now, f"{case}: {what}"
    attempts = [it for it in row.lacks if it.endswith("sent") or it.startswith("an attempt")]
    if attempts:
        return now, f"{case}: {html.escape(', '.join(attempts))}"
    if row.earliest > now:
        return row.earliest, f"{case}: the six weeks are over"
    return row.latest, f"{case}: the year since the latest upload is over by then"


def due_part(cases: Sequence[CaseRow], now: int) -> str:
    rows = sorted(due_of(it, now) for it in cases)
    lines = "".join(f"<li data-find><span>{'now' if at <= now else due(at)}</span><span>{what}</span></li>\n"
                    for at, what in rows)
    return (f'<div class="box"><ul class="due">{lines}</ul></div>' if rows else "") + none_line(rows)


def marks_of(row: CaseRow, now: int) -> Iterator[Tuple[Tuple[str, str], str]]:
    """What a transfer needs, each with whether it is there."""
    yield THERE if row.sent >= FEWEST_SENT else MISSING, f"{row.sent} of {FEWEST_SENT} attempts sent"
    for it in MEANS:
        yield THERE if row.has(it) else MISSING, it
    if row.first is None or row.earliest <= now:
        yield MISSING if row.first is None else THERE, "six weeks"
    else:
        yield MISSING, f"six weeks, until {due(row.earliest)}"
    if row.year == "over":
        yield THERE, "a year since the latest upload"
    else:
        how = MISSING if row.year == "not over" else UNKNOWN
        yield how, f"a year since the latest upload, by {due(row.opened + YEAR)} at the latest"


def unbroken(text: str) -> str:
    """A text as HTML, of which no line breaks in the midst of a moment."""
    return re.sub(r"\d+-\d\d-\d\d \d\d:\d\d UTC", r'<span class="when">\g<0></span>', html.escape(text))


def case_card(row: CaseRow, now: int) -> str:
    """An open case with what it has and lacks, and its texts."""
    e = {key: text_of(value) for key, value in dataclasses.asdict(row).items()}
    kind = {"continue": "to continue it", "reuse": "to reuse the name"}.get(row.kind, e["kind"])
    marks = "".join(f'<li class="tag {colour}">{sign} {unbroken(text)}</li>'
                    for (colour, sign), text in marks_of(row, now))
    texts = "".join(f"<dt>{head}</dt><dd>{e[key]}</dd>" for head, key in
                    (("tried", "contact"), ("work", "work"), ("why this name", "why")))
    ready = ready_text(row) if lacks_attempts(row) else f"ready {ready_text(row)}"
    return "".join((
        f'<article id="case-{e["name"]}" data-find{" class=ready" if row.ready else ""}>',
        f'<div class="head"><h3>{e["name"]}</h3>',
        f'<span class="tag{" yes" if row.ready else ""}">{ready}</span></div>',
        f'<p>{e["candidate"]} asks {text_of(", ".join(row.owners))} for it, {kind}. ',
        f'<span class="soft">Opened {unbroken(moment(row.opened))}, ',
        f'{counted(row.attempts, "attempt")}.</span></p>',
        f'<ul class="marks">{marks}</ul><dl>{texts}</dl></article>\n'))


def alike_part(found: Overview) -> Iterator[str]:
    """Names that look alike, a line for each group."""
    def shown(name: str) -> str:
        return f'<span><b>{text_of(name)}</b> <span class="soft">{text_of(", ".join(found.owners[name]))}</span></span>'

    def line(names: Sequence[str]) -> str:
        more = f"<span>and {len(names) - MOST_ALIKE} more</span>" if len(names) > MOST_ALIKE else ""
        return f'<li data-find>{"".join(map(shown, names[:MOST_ALIKE]))}{more}</li>\n'
    groups = alike(found.owners)
    if groups:
        yield f'<div class="box"><ul class="{kind_of("alike", groups)}">'
        yield from map(line, groups)
        yield "</ul></div>"
    yield none_line(groups)


def quota_part(found: Overview) -> Iterator[str]:
    def cells(row: QuotaRow) -> List[Cell]:
        kind = "top" if row.full >= TOP else "high" if row.full >= HIGH else ""
        bar = f'<span class="bar {kind}"><i style="width:{min(100, row.full):.1f}%"></i></span>'
        full = f'<span class="full">{bar}{row.full:.1f} %</span>'
        return [text_of(row.name), (full, f"{row.full:.3f}"), (human(row.charge), row.charge),
                (human(row.quota), row.quota), text_of(", ".join(row.owners))]
    rows = sorted(found.quotas, key=by_fullness)
    return table_of("quotas", ["name", "full", "charge", "quota", "owners"], map(cells, rows), rows)


def owner_part(found: Overview) -> Iterator[str]:
    def cells(user: str, owned: Sequence[OwnedName]) -> List[Cell]:
        marked = "".join(f'<span class="tag{" alone" if it.alone else ""}">{text_of(it.name)}</span>'
                         for it in owned)
        count, alone = len(owned), sum(it.alone for it in owned)
        return [text_of(user), (str(count), count), (str(alone), alone), f'<span class="names">{marked}</span>']
    names = [it for owned in found.owned.values() for it in owned]
    return table_of("owners", ["user", "owns", "alone", "names"], starmap(cells, sorted(found.owned.items())), names)


def page_of(url: str, found: Overview, cases: Sequence[CaseRow], now: int) -> Iterator[str]:
    """The page of the office, in pieces: one HTML file that asks for nothing else."""
    ready = sum(it.ready for it in cases)
    tiles = ((len(found.owners), "held names"), (len(cases), "open cases"), (ready, "ready for a transfer"),
             (found.full, f"quotas at {HIGH} % or above"), (found.alone, "names with one owner"))
    # as they stand between their tags: the digest is of all that stands there
    style, script = (f"\n{part_of_page(name)}" for name in ("page.css", "page.js"))
    parts: Dict[Optional[str], Iterable[str]] = {
        "digest": [base64.b64encode(hashlib.sha256(script.encode()).digest()).decode()],
        "host": [html.escape(urllib.parse.urlsplit(url).netloc)], "when": [moment(now)], "style": [style],
        "script": [script], "tiles": (f"<li><b>{number}</b>{what}</li>" for number, what in tiles),
        "due": [due_part(cases, now)], "cases": [*(case_card(it, now) for it in cases), none_line(cases)],
        "alike": alike_part(found), "quotas": quota_part(found), "owners": owner_part(found)}
    for text, part, *_ in string.Formatter().parse(part_of_page("page.html")):
        yield text
        yield from parts.get(part, ())


def open_itself(path: str, flags: int) -> int:
    """Opens a file that is not a link: who else may write this folder may have made one, to a file of yours."""
    return os.open(path, flags | getattr(os, "O_NOFOLLOW", 0), 0o666)


def put_whole(path: str, pieces: Iterable[str], is_synced: bool = True) -> None:
    """Writes a file as a whole or not at all: beside it first, and then in its place. Who else may write this folder
    may have put a link beside it: nothing is written through that."""
    part = f"{path}.part"
    try:
        with suppress(FileNotFoundError):
            os.remove(part)
        with open(part, "x", encoding="utf-8") as out:
            # Windows has no modes to set, and takes a path alone
            os.chmod(out.fileno() if os.chmod in os.supports_fd else part, 0o644)
            out.writelines(pieces)
            out.flush()
            if is_synced:
                os.fsync(out.fileno())
        os.replace(part, path)
    except BaseException as end:
        with suppress(OSError):
            os.remove(part)
        if isinstance(end, OSError):
            raise Stop(WRONG, f"{path} can't be written: {end.strerror}. What was there stays.") from end
        raise
