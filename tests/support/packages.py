"""packages.py FOLDER: makes the packages that the tools upload, small wheels and a source archive that builds
offline."""
from __future__ import annotations

import argparse
import base64
import hashlib
import io
import tarfile
import zipfile
from os import PathLike
from typing import Iterable, Mapping

# What a source archive is built by: it packs the folder `built` as it is, and needs no other package.
BACKEND = '''import os, zipfile

def build_wheel(folder, config_settings=None, metadata_directory=None):
    with zipfile.ZipFile(os.path.join(folder, "WHEEL_NAME"), "w") as wheel:
        for at, _, files in os.walk("built"):
            for file in files:
                path = os.path.join(at, file)
                with open(path) as kept:
                    wheel.writestr(os.path.relpath(path, "built"), kept.read())
    return "WHEEL_NAME"
'''
PYPROJECT = '[build-system]\nrequires = []\nbuild-backend = "backend"\nbackend-path = ["."]\n'


def wheel_name(name: str, version: str) -> str:
    return f"{name}-{version}-py3-none-any.whl"


def recorded(path: str, data: bytes) -> str:
    digest = base64.urlsafe_b64encode(hashlib.sha256(data).digest()).rstrip(b"=").decode()
    return f"{path},sha256={digest},{len(data)}\n"


def wheel_files(name: str, version: str, code: str, needs: Iterable[str] = (), requires: str = "") -> dict[str, str]:
    """The files of a wheel with one module, by path."""
    info = f"{name}-{version}.dist-info"
    metadata = f"Metadata-Version: 2.1\nName: {name}\nVersion: {version}\n"
    metadata += f"Requires-Python: {requires}\n" if requires else ""
    metadata += "".join(f"Requires-Dist: {need}\n" for need in needs)
    files = {
        f"{name}.py": code,
        f"{info}/METADATA": metadata,
        f"{info}/WHEEL": "Wheel-Version: 1.0\nGenerator: index\nRoot-Is-Purelib: true\nTag: py3-none-any\n",
    }
    record = "".join(recorded(path, text.encode()) for path, text in files.items())
    return {**files, f"{info}/RECORD": f"{record}{info}/RECORD,,\n"}


def make_wheel(path: str | PathLike[str], files: Mapping[str, str | bytes]) -> None:
    with zipfile.ZipFile(path, "w") as wheel:
        for name, text in files.items():
            wheel.writestr(name, text)


def make_source(path: str | PathLike[str], name: str, version: str, files: Mapping[str, str]) -> None:
    """A source archive (PEP 625) whose build (PEP 517) packs these files."""
    front = f"{name}-{version}"
    inside = {f"built/{inner}": text for inner, text in files.items()}
    inside["pyproject.toml"] = PYPROJECT
    inside["backend.py"] = BACKEND.replace("WHEEL_NAME", wheel_name(name, version))
    inside["PKG-INFO"] = f"Metadata-Version: 2.1\nName: {name}\nVersion: {version}\n"
    with tarfile.open(path, "w:gz") as archive:
        for inner, text in inside.items():
            entry = tarfile.TarInfo(f"{front}/{inner}")
            entry.size, entry.mode = len(text.encode()), 0o644
            archive.addfile(entry, io.BytesIO(text.encode()))


def make_packages(folder: str | PathLike[str]) -> dict[str, dict[str, tuple[str, str]]]:
    """For each project its files by name: the path, and the Python versions that its upload declares."""
    made: dict[str, dict[str, tuple[str, str]]] = {"frob": {}, "spam-nest": {}}

    def wheel(project: str, name: str, version: str, code: str, needs: Iterable[str] = (), requires: str = "") -> None:
        file = wheel_name(name, version)
        make_wheel(f"{folder}/{file}", wheel_files(name, version, code, needs))
        made[project][file] = f"{folder}/{file}", requires

    make_source(f"{folder}/frob-0.9.tar.gz", "frob", "0.9", wheel_files("frob", "0.9", 'VERSION = "0.9"\n'))
    made["frob"]["frob-0.9.tar.gz"] = f"{folder}/frob-0.9.tar.gz", ""
    for version in ("1.0", "1.1"):
        wheel("frob", "frob", version, f'VERSION = "{version}"\n')
    uses = "import frob\n\nFROB = frob.VERSION\n"
    wheel("spam-nest", "spam_nest", "1.0+fix.1", uses, needs=["frob>=0.9"], requires=">=3.7")
    wheel("spam-nest", "spam_nest", "2.0", uses, needs=["frob>=0.9"], requires=">=99")
    return made


def main() -> None:
    parser = argparse.ArgumentParser(description=__doc__)
    parser.add_argument("folder", metavar="FOLDER", help="a folder that exists")
    make_packages(parser.parse_args().folder)


if __name__ == "__main__":
    main()
