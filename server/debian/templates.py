#!/usr/bin/python3
"""Makes templates of units in a folder, for several indexes on one machine: an instance is the port that its index
listens on."""
from __future__ import annotations

import sys

TEMPLATED = ("index.service", "index-backup.service", "index-backup.timer", "index-health.service",
             "index-health.timer", "index-metrics.service", "index-metrics.timer", "index-punch.path",
             "index-punch.service", "index-punch.timer")
# What is changed in a unit for one index: everywhere, and in the lines that say what is run. Index 8081 has the
# database /var/lib/index/8081/index.db, and so on.
EVERYWHERE = (
    ("Python package index", "Python package index at %i"),
    ("StateDirectory=index\n", "StateDirectory=index/%i\n"),
    ("WorkingDirectory=/var/lib/index\n", "WorkingDirectory=/var/lib/index/%i\n"),
    ("127.0.0.1:8080", "127.0.0.1:%i"),
    ("StateDirectory=index-punch\n", "StateDirectory=index-punch/%i\n"),
    ("index-backup.timer", "index-backup@%i.timer"),
    ("index-punch.timer index-punch.path", "index-punch@%i.timer index-punch@%i.path"),
)
RUN = (
    ("/var/lib/index/", "/var/lib/index/%i/"),
    ("/var/backups/index", "/var/backups/index/%i"),
    ("/var/lib/index-punch", "/var/lib/index-punch/%i"),
    ("index.service", "index@%i.service"),
    ("index-health.service", "index-health@%i.service"),
    ("/index.prom", "/index-%i.prom"),
    ("/state.json", "/%i.json"),
    ("127.0.0.1/8080", "127.0.0.1/%i"),
    ("port 8080", "port %i"),
)
# a folder for the copies of each
FOLDER = "ExecStartPre=/bin/mkdir -p -m 700 /var/backups/index/%i\n"


def template(name: str, unit: str) -> str:
    """The template of this unit. What is changed is in lines that systemd reads, and not in comments."""
    lines: list[str] = []
    is_run = False
    for line in unit.splitlines(keepends=True):
        # a line goes on after a backslash
        is_run = line.startswith(("Exec", "Environment=")) or is_run and lines[-1].endswith("\\\n")
        # the check of health may ask for the room on a disk, and look into no folder of one index
        is_changed = is_run and "--room" not in line
        for old, new in () if line.startswith("#") else EVERYWHERE + (RUN if is_changed else ()):
            line = line.replace(old, new)
        if name == "index-backup.service" and line.startswith("ExecStart="):
            line = FOLDER + line
        lines.append(line)
    return "".join(lines)


def main() -> None:
    folder, = sys.argv[1:]
    for name in TEMPLATED:
        with open(f"{folder}/{name}", encoding="utf-8") as kept:
            text = kept.read()
        unit, kind = name.split(".")
        with open(f"{folder}/{unit}@.{kind}", "w", encoding="utf-8") as made:
            made.write(template(name, text))


if __name__ == "__main__":
    main()
