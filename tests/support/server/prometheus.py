"""What Prometheus reads: promtool, the text format by its own grammar, and our rules."""
from __future__ import annotations

import json
import re
import subprocess
from typing import NamedTuple

from support.needed import want_command
from support.places import SERVER

RULES, DASHBOARD = f"{SERVER}/prometheus/index-alarms.yml", f"{SERVER}/prometheus/index-dashboard.json"
NUMBER = r"[+-]?(?:\d+(?:\.\d*)?|\.\d+)(?:[eE][+-]?\d+)?|[+-]?Inf|NaN"
LABEL = r'[a-zA-Z_][a-zA-Z0-9_]*="(?:[^"\\\n]|\\["\\n])*"'
SAMPLE = re.compile(rf"([a-zA-Z_:][a-zA-Z0-9_:]*)(?:\{{((?:{LABEL},?)*)\}})? ({NUMBER})")


class Rule(NamedTuple):
    """A rule of the file: its name, its severity and its annotations."""
    name: str
    severity: str
    texts: dict[str, str]


def promtool(*words: str, said: str = "") -> subprocess.CompletedProcess:
    """A run of promtool, with this as its input. Without it the test is skipped."""
    want_command("promtool", "prometheus")
    return subprocess.run(["promtool", *words], input=said, stdout=subprocess.PIPE, stderr=subprocess.STDOUT, text=True)


def rules() -> list[Rule]:
    with open(RULES, encoding="utf-8") as kept:
        _, *blocks = kept.read().split("      - alert: ")
    return [Rule(it.split("\n")[0], *re.findall(r"^ {8}labels: \{severity: (\w+)\}$", it, re.M),
                 dict(re.findall(r'^ {10}(\w+): "(.*)"$', it, re.M))) for it in blocks]


def families(text: str) -> dict[str, tuple[str, list[tuple[str, str, float]]]]:
    """The type and the samples of each metric of a text, which has to keep to the format: HELP and TYPE before the
    samples, all lines of a metric in one group, no sample twice, and the buckets of a histogram rising."""
    found: dict[str, tuple[str, list]] = {}
    assert text.endswith("\n")
    helped = now = ""
    for line in text.splitlines():
        head = re.fullmatch(r"# (HELP|TYPE) ([a-zA-Z_:][a-zA-Z0-9_:]*) (.+)", line)
        if head and head[1] == "HELP":
            helped = head[2]
        elif head:
            assert head[2] == helped and head[2] not in found and head[3] in ("gauge", "counter", "histogram"), line
            now, found[head[2]] = head[2], (head[3], [])
        else:
            sample = SAMPLE.fullmatch(line)
            assert sample, line
            ends = ("_bucket", "_sum", "_count") if found[now][0] == "histogram" else ("",)
            assert sample[1] in [now + it for it in ends], line
            found[now][1].append((sample[1], sample[2] or "", float(sample[3])))
    for name, (kind, samples) in found.items():
        assert samples and len({it[:2] for it in samples}) == len(samples), name
        assert kind != "histogram" or has_sound_buckets(name, samples), name
    return found


def has_sound_buckets(name: str, samples: list[tuple[str, str, float]]) -> bool:
    """Whether the buckets of each histogram rise up to +Inf, which is its count."""
    rows: dict[str, list[tuple[float, float]]] = {}
    for sample, labels, value in samples:
        if sample == f"{name}_bucket":
            bound = re.findall(r'le="([^"]+)"', labels)[0]
            rows.setdefault(re.sub(r',?le="[^"]+"', "", labels), []).append((float(bound), value))
    counts = {labels: value for sample, labels, value in samples if sample == f"{name}_count"}
    return all(row == sorted(row) and [it[1] for it in row] == sorted(it[1] for it in row)
               and row[-1] == (float("inf"), counts[labels]) for labels, row in rows.items()) and bool(rows)


def tried(folder: str, series: dict[str, str], minutes: int, raised: list[dict[str, str]]) -> str:
    """What `promtool test rules` says of our rules with these series, a value a minute, if at that minute these alarms,
    by their labels with their names, and no others are raised. Nothing if it is so."""
    each = {rule.name: rule for rule in rules()}
    wanted = []
    for name, rule in each.items():
        own = [{k: v for k, v in it.items() if k != "alertname"} for it in raised if it["alertname"] == name]
        wanted.append({"eval_time": f"{minutes}m", "alertname": name, "exp_alerts": [
            {"exp_labels": {"severity": rule.severity, **labels},
             "exp_annotations": {key: text.replace("{{ $labels.of }}", labels.get("of", ""))
                                 for key, text in rule.texts.items()}} for labels in own]})
    test = {"rule_files": [RULES], "evaluation_interval": "1m", "tests": [{
        "interval": "1m", "alert_rule_test": wanted,
        "input_series": [{"series": name, "values": values} for name, values in series.items()]}]}
    # JSON is YAML
    with open(f"{folder}/test.json", "w", encoding="utf-8") as made:
        json.dump(test, made)
    ended = promtool("test", "rules", f"{folder}/test.json")
    return "" if ended.returncode == 0 else ended.stdout
