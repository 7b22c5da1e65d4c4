#!/usr/bin/env python3
"""Makes one file of indexctl, to copy to any machine with Python 3.8 or later.

The file is a zip archive that Python runs. The same sources give the same bytes: the entries are sorted, and their
times are fixed."""
from __future__ import annotations

import argparse
import io
import os
import sys
import zipapp
import zipfile
from pathlib import Path
from typing import Iterator, Tuple

HERE = Path(__file__).resolve().parent
# a zip archive has no earlier moment
TIME = (1980, 1, 1, 0, 0, 0)
SHARED = HERE.parent / "server/lib/package_index"
MAIN = "import sys\n\nfrom indexctl.main import main\n\nsys.exit(main())\n"
TAKEN = ("__init__.py", "changes.py", "hints.py", "log_place.py", "names.py", "shown.py")
LEFT_OUT = ("__main__.py", "build.py")
SUFFIXES = (".py", ".html", ".css", ".js", ".svg")


def files_of(folder: Path, package: str) -> Iterator[Tuple[str, bytes]]:
    """The files of a package, by their paths in the archive."""
    for path in folder.rglob("*"):
        name = path.relative_to(folder).as_posix()
        if path.suffix in SUFFIXES and name not in LEFT_OUT:
            yield f"{package}/{name}", path.read_bytes()


def build(target: str) -> None:
    """Writes the one file."""
    archive = io.BytesIO()
    files = {"__main__.py": MAIN.encode(), **dict(files_of(HERE, "indexctl"))}
    # of what it shares with the programs of the server, that which it imports
    files.update({name: data for name, data in files_of(SHARED, "package_index") if os.path.basename(name) in TAKEN})
    with zipfile.ZipFile(archive, "w") as made:
        for name in sorted(files):
            entry = zipfile.ZipInfo(name, TIME)
            entry.external_attr = 0o100644 << 16
            made.writestr(entry, files[name], zipfile.ZIP_DEFLATED, compresslevel=9)
    archive.seek(0)
    zipapp.create_archive(archive, target, "/usr/bin/env python3")
    os.chmod(target, 0o755)


def main() -> int:
    parser = argparse.ArgumentParser(description="Makes one file of indexctl, which runs by Python 3.8 or later.")
    parser.add_argument("target", metavar="TARGET", help="the file to write")
    target = parser.parse_args().target
    try:
        build(target)
    except OSError as end:
        sys.exit(f"build.py: {target} can't be written: {end.strerror}")
    return 0


if __name__ == "__main__":
    sys.exit(main())
