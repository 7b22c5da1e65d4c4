"""Open cases: what each lacks, when it can be ready, and in which order they come."""
from __future__ import annotations

from dataclasses import dataclass
from typing import List, Optional, Tuple

from indexctl.standings import Case, Standing
from indexctl.units import SIX_WEEKS, YEAR, counted, due

MEANS = ("profile", "author", "pages")
FEWEST_SENT = 3


@dataclass(frozen=True)
class CaseRow(Case):
    """An open case with what it lacks, and when it can be ready: a row of `case list`, and of the office's page."""
    name: str
    owners: List[str]
    year: str
    lacks: List[str]
    ready: bool
    earliest: int
    latest: int


def lacks_of(case: Case, earliest: int, now: int) -> List[str]:
    """What a case lacks of attempts and of the six weeks."""
    lacks = []
    if case.sent < FEWEST_SENT:
        lacks.append(f"{counted(FEWEST_SENT - case.sent, 'more attempt')} sent")
    lacks += [f"an attempt by {it}" for it in MEANS if not case.has(it)]
    if earliest > now:
        lacks.append("six weeks from the first attempt on" if case.first is None else
                     f"six weeks, until {due(earliest)}")
    return lacks


def case_row(found: Standing, case: Case, now: int, refusal: Optional[str]) -> CaseRow:
    """The case of this name, as seen at this moment.

    `refusal` is what a transfer that states `not quiet` was refused as, or None if nobody asked. No answer shows the
    latest upload. But an upload since the opening would have ended the case, so a year after that it is over too."""
    earliest = max(now, (now if case.first is None else case.first) + SIX_WEEKS)
    lacks, bound = lacks_of(case, earliest, now), case.opened + YEAR
    year = "over" if now >= bound else "unknown"
    year = {"HomePageActive": "over", "RecentRelease": "not over"}.get(refusal or "", year)
    latest = earliest if year == "over" else max(earliest, bound)
    if year == "not over":
        lacks.append(f"a year since the latest upload, until {due(bound)} at the latest")
    return CaseRow(**vars(case), name=found.name, owners=found.owners, year=year, lacks=lacks,
                   ready=not lacks and year == "over", earliest=earliest, latest=latest)


def lacks_attempts(row: CaseRow) -> bool:
    """Whether no moment makes a case ready, but more attempts do."""
    return row.first is None or row.sent < FEWEST_SENT or not all(map(row.has, MEANS))


def ready_text(row: CaseRow) -> str:
    """When a case is ready, or why there is no such moment."""
    if row.ready:
        return "now"
    if row.first is None:
        return "not begun"
    if lacks_attempts(row):
        return "lacks attempts"
    return f"by {due(row.latest)}" if row.year == "not over" else f"from {due(row.earliest)}"


def lacks_text(row: CaseRow) -> str:
    if row.lacks:
        return ", ".join(row.lacks)
    if row.year == "unknown":
        return f"perhaps a year since the latest upload, until {due(row.latest)} at the latest"
    return "a look at the home page"


def soonest(row: CaseRow) -> Tuple[bool, int, str]:
    """The order of cases: those that are ready, then by the moment at which each can be."""
    return not row.ready, row.latest if row.year == "not over" else row.earliest, row.name
