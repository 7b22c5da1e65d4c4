"""Source archives and projects whose build asks for a backend, which comes from the index; and what projects have
before a recipe adds the index to them."""
from __future__ import annotations

import io
import os
import tarfile

from support.packages import make_wheel, wheel_files, wheel_name

# it packs one module, whose name and version stand in the file NAME
BACKEND = '''import io, os, tarfile, zipfile

def read():
    with open("NAME") as kept:
        return kept.read().split()

def build_wheel(folder, config_settings=None, metadata_directory=None):
    name, version = read()
    info, file = f"{name}-{version}.dist-info", f"{name}-{version}-py3-none-any.whl"
    with zipfile.ZipFile(os.path.join(folder, file), "w") as wheel:
        wheel.writestr(f"{name}.py", f"VERSION = '{version}'\\n")
        wheel.writestr(f"{info}/METADATA", f"Metadata-Version: 2.1\\nName: {name}\\nVersion: {version}\\n")
        wheel.writestr(f"{info}/WHEEL", "Wheel-Version: 1.0\\nRoot-Is-Purelib: true\\nTag: py3-none-any\\n")
        wheel.writestr(f"{info}/RECORD", "")
    return file

def build_sdist(folder, config_settings=None):
    name, version = read()
    file = f"{name}-{version}.tar.gz"
    with open("PKG-INFO", "w") as made:
        made.write(f"Metadata-Version: 2.1\\nName: {name}\\nVersion: {version}\\n")
    with tarfile.open(os.path.join(folder, file), "w:gz") as archive:
        for inner in ("NAME", "PKG-INFO", "pyproject.toml"):
            archive.add(inner, f"{name}-{version}/{inner}")
    return file
'''
# what a project has before a recipe adds the index to it
POETRY = """[tool.poetry]
name = "mine"
version = "1.0"
description = ""
authors = []

[tool.poetry.dependencies]
python = ">=3.8"

"""
PDM = '[project]\nname = "mine"\nversion = "1.0"\nrequires-python = ">=3.8"\ndependencies = []\n\n'
# of a Debian package
CHANGELOG = """frob (0.1-1) unstable; urgency=low

  * x

 -- A <a@packages.example>  Mon, 01 Jan 2024 00:00:00 +0000
"""
PYPROJECT = '[build-system]\nrequires = ["tiny_backend"]\nbuild-backend = "tiny_backend"\n'


def project_files(name: str, version: str) -> dict[str, str]:
    """The files of a project that the backend builds."""
    return {"NAME": f"{name} {version}\n", "pyproject.toml": PYPROJECT,
            "PKG-INFO": f"Metadata-Version: 2.1\nName: {name}\nVersion: {version}\n"}


def make_project(folder: str, name: str, version: str) -> None:
    for inner, text in project_files(name, version).items():
        with open(os.path.join(folder, inner), "w") as made:
            made.write(text)


def make_isolated(folder: str) -> tuple[str, str]:
    """The paths of the backend's wheel, and of the source archive of frob 0.8, whose build asks for it."""
    backend, archive = f"{folder}/{wheel_name('tiny_backend', '1.0')}", f"{folder}/frob-0.8.tar.gz"
    make_wheel(backend, wheel_files("tiny_backend", "1.0", BACKEND))
    with tarfile.open(archive, "w:gz") as made:
        for inner, text in project_files("frob", "0.8").items():
            entry = tarfile.TarInfo(f"frob-0.8/{inner}")
            entry.size, entry.mode = len(text.encode()), 0o644
            made.addfile(entry, io.BytesIO(text.encode()))
    return backend, archive
