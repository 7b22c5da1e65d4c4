"""How full quotas are, and who owns which names."""
from __future__ import annotations

from dataclasses import dataclass, field
from typing import Dict, Iterable, Iterator, List, NamedTuple, Tuple

from indexctl.standings import Standing

# from so many percent on a quota is nearly full
HIGH = 80


@dataclass(frozen=True)
class QuotaRow:
    """How full the quota of a name is, in percent."""
    name: str
    full: float
    charge: int
    quota: int
    owners: List[str]


class OwnedName(NamedTuple):
    """A name of an owner, and whether nobody else owns it."""
    name: str
    alone: bool


def quota_row(found: Standing) -> QuotaRow:
    full = 100 * found.charge / found.quota if found.quota else 100.0
    return QuotaRow(found.name, full, found.charge, found.quota, found.owners)


def by_fullness(row: QuotaRow) -> Tuple[float, str]:
    """The order of quotas: the fullest first."""
    return -row.full, row.name


def quota_rows(names: Iterable[Standing], above: float) -> List[QuotaRow]:
    """The names by how full their quotas are, from so many percent on."""
    return sorted((it for it in map(quota_row, names) if it.full >= above), key=by_fullness)


@dataclass
class Overview:
    """What the office's page shows of the held names: the owners of each, which tell names that look alike, and the
    names that somebody has to look at, which are the open cases, the quotas that are nearly full, and what one owner
    owns alone; with `is_whole` all."""
    is_whole: bool = False
    owners: Dict[str, Tuple[str, ...]] = field(default_factory=dict)
    full: int = 0
    alone: int = 0
    quotas: List[QuotaRow] = field(default_factory=list)
    owned: Dict[str, List[OwnedName]] = field(default_factory=dict)

    def look_at(self, names: Iterable[Standing]) -> Iterator[Standing]:
        """Takes in each name as it comes, and gives those with an open case. No other is kept whole."""
        # each group of owners once, however many names it has
        groups: Dict[Tuple[str, ...], Tuple[str, ...]] = {}
        for found in names:
            row, is_alone = quota_row(found), len(found.owners) == 1
            owners = tuple(found.owners)
            self.owners[found.name] = groups.setdefault(owners, owners)
            self.full, self.alone = self.full + (row.full >= HIGH), self.alone + is_alone
            if self.is_whole or row.full >= HIGH:
                self.quotas.append(row)
            if self.is_whole or is_alone:
                for owner in found.owners:
                    self.owned.setdefault(owner, []).append(OwnedName(found.name, is_alone))
            if found.case:
                yield found
