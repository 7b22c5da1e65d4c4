"""Wheels of what the tests are run by, made of the files that this Python has of it."""
from __future__ import annotations

import importlib.util
import os
from importlib import metadata

from support.packages import make_wheel, recorded
from support.serving import Index, accepted

# of each project its modules, and the projects that they need
PARTS = {
    "attrs": ("attr attrs", ""), "execnet": ("execnet", ""), "html5lib": ("html5lib", "six webencodings"),
    "hypothesis": ("hypothesis _hypothesis_ftz_detector _hypothesis_pytestplugin", "attrs sortedcontainers"),
    "iniconfig": ("iniconfig", ""), "packaging": ("packaging", ""), "pluggy": ("pluggy", ""),
    "pytest": ("pytest _pytest py", "attrs iniconfig packaging pluggy"), "pytest-timeout": ("pytest_timeout", "pytest"),
    "pytest-xdist": ("xdist", "execnet pytest"), "six": ("six", ""), "sortedcontainers": ("sortedcontainers", ""),
    "webencodings": ("webencodings", ""),
}


def files_of(module: str) -> dict[str, bytes]:
    """The files of a module or a package, by their paths in a wheel."""
    origin = getattr(importlib.util.find_spec(module), "origin", None)
    assert origin, module
    folder, found = os.path.dirname(origin), [origin]
    if os.path.basename(origin) == "__init__.py":
        found = [f"{at}/{it}" for at, _, names in os.walk(folder) for it in names if not it.endswith(".pyc")]
        folder = os.path.dirname(folder)
    made = {}
    for path in sorted(found):
        with open(path, "rb") as kept:
            made[os.path.relpath(path, folder)] = kept.read()
    return made


def make_debian_wheel(project: str, folder: str) -> str:
    """The path of a wheel of this project. Debian's own mark of a version is left out."""
    known, (modules, needs) = metadata.distribution(project), PARTS[project]
    version, name = known.version.partition("+")[0], project.replace("-", "_")
    info = f"{name}-{version}.dist-info"
    files = {path: data for module in modules.split() for path, data in files_of(module).items()}
    told = f"Metadata-Version: 2.1\nName: {project}\nVersion: {version}\n"
    told += "".join(f"Requires-Dist: {need}\n" for need in needs.split())
    texts = {"METADATA": told, "WHEEL": "Wheel-Version: 1.0\nGenerator: index\nRoot-Is-Purelib: true\n"
             "Tag: py3-none-any\n", "entry_points.txt": known.read_text("entry_points.txt") or ""}
    files |= {f"{info}/{file}": text.encode() for file, text in texts.items()}
    record = "".join(recorded(path, data) for path, data in files.items()) + f"{info}/RECORD,,\n"
    path = f"{folder}/{name}-{version}-py3-none-any.whl"
    make_wheel(path, {**files, f"{info}/RECORD": record.encode()})
    return path


def upload_all(index: Index, folder: str) -> str:
    """Uploads a wheel of each of these projects, and returns where pip finds them."""
    for project in PARTS:
        path = make_debian_wheel(project, folder)
        with open(path, "rb") as kept:
            accepted(index.claim(project))
            accepted(index.upload(project, os.path.basename(path), kept.read()))
    return f"http://127.0.0.1:{index.port}/simple/"
