"""The library of server/, as its programs import it."""
import sys

from support.places import SERVER

sys.dont_write_bytecode = True
if f"{SERVER}/lib" not in sys.path:
    sys.path.insert(0, f"{SERVER}/lib")

from package_index import (
    cache,
    carried,
    changes,
    commands,
    copied,
    copies,
    counted,
    database,
    disk,
    ends,
    exchange,
    exposition,
    followed,
    forms,
    free_ranges,
    front,
    fronts,
    grown,
    hints,
    holes,
    log_place,
    long_work,
    looks,
    migrated,
    names,
    notes,
    passes,
    publishers,
    punched,
    replies,
    shown,
    start,
    tallies,
    two_machines,
    units,
    volume,
    volume_copies,
    watched,
)

__all__ = ["cache", "carried", "changes", "commands", "copied", "copies", "counted", "database", "disk", "ends",
           "exchange", "exposition", "followed", "forms", "free_ranges", "front", "fronts", "grown", "hints", "holes",
           "log_place", "long_work", "looks", "migrated", "names", "notes", "passes", "publishers", "punched",
           "replies", "shown", "start", "tallies", "two_machines", "units", "volume", "volume_copies", "watched"]
