"""The probe of a case: whether a year has passed since the latest upload, which no answer of the index shows."""
from __future__ import annotations

from typing import Iterable, List, Optional, Tuple

from indexctl.cases import CaseRow, case_row, soonest
from indexctl.changes import Desk
from indexctl.ends import UNREACHED, Stop
from indexctl.standings import Standing


def probe(desk: Desk, name: str) -> str:
    """What a transfer lacks, as the refusal of one that can't be accepted: it states that the home page is not quiet.

    The index looks at the attempts, the six weeks, the year and that statement, in this order, and refuses by the first
    that fails. The last always does, so nothing can change."""
    row = {"do": "transfer", "name": name, "quiet": False}
    status, answer = desk.post(f"case of {name}", row, is_kept=False)
    if status == 200:
        raise Stop(UNREACHED, f"{name}: a transfer that states `not quiet` was accepted. No such index is known.")
    return answer


def open_cases(desk: Desk, names: Iterable[Standing], now: int) -> Tuple[List[CaseRow], bool]:
    """A row for each open case, the soonest first. The year is looked at if the token is of the office."""
    having = [(it, it.case) for it in names if it.case]
    is_office = bool(having and desk.setting.token) and desk.caller() == "office"
    rows = []
    for found, case in having:
        refusal: Optional[str] = probe(desk, found.name) if is_office else None
        if refusal not in ("NoCase", "NoProject"):
            rows.append(case_row(found, case, now, refusal))
    return sorted(rows, key=soonest), is_office
