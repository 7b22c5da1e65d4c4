"""Numbers as Prometheus reads them: its text format, version 0.0.4."""
from __future__ import annotations

from typing import Dict, Iterable, List, Mapping, NamedTuple, Tuple, Union

# what the lines of a histogram have behind its name
PARTS = "_bucket", "_sum", "_count"


class Metric(NamedTuple):
    """One number, and by which labels it is told from others of its name."""
    name: str
    value: Union[int, float]
    labels: Tuple[Tuple[str, str], ...] = ()


def family(name: str, known: Mapping[str, Tuple[str, str]]) -> str:
    """The name under which a number is described: that of a histogram has several."""
    for end in PARTS:
        if name.endswith(end) and known.get(name[:-len(end)], ("", ""))[0] == "histogram":
            return name[:-len(end)]
    return name


def line(metric: Metric, port: int) -> str:
    """Several indexes of one machine are told apart by their ports. No label has a sign that is to be escaped."""
    labels = ",".join(f'{name}="{value}"' for name, value in (("port", str(port)), *metric.labels))
    return f"{metric.name}{{{labels}}} {metric.value}\n"


def text_of(found: Iterable[Metric], port: int, known: Mapping[str, Tuple[str, str]]) -> str:
    """All lines; those of one name together, below its type and what it is."""
    groups: Dict[str, List[str]] = {}
    for it in found:
        groups.setdefault(family(it.name, known), []).append(line(it, port))
    return "".join(f"# HELP {name} {known[name][1]}\n# TYPE {name} {known[name][0]}\n{''.join(lines)}"
                   for name, lines in groups.items())
