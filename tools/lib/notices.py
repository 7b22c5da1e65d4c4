"""The crates of the kit that the program links, and the notices that go with them: read from the kit, kept in
server/debian/third-party.json, and written into the package's `copyright` and a list of its parts."""
from __future__ import annotations

import json
import os
import re
import textwrap
import uuid
from collections.abc import Iterable
from typing import Any

from texts import read

KEPT, OWN = "server/debian/third-party.json", "server/debian/copyright"
# a licence of several that the kit has of a crate, where one may choose
CHOICE = {"LICENSE-APACHE": "LICENSE-MIT"}
# in a README of the kit: what a crate is a port of
PORT = re.compile(r"Rust crate `([\w-]+)` (\d+\.\d+\.\d+)")
# how a text is known
KNOWN = {"BSD-3-Clause": "Neither the name of", "MIT": "Permission is hereby granted, free of charge",
         "Unicode-3.0": "UNICODE LICENSE V3", "Apache-2.0": "Apache License"}


def crates_of(top: str) -> dict[str, list[str]]:
    """Each crate of crates.txt but those of tests, and what it stands on."""
    rows = (line.partition(":") for line in read(f"{top}/crates.txt").splitlines() if line and line[0] != "#")
    return {name: uses.split() for name, _, uses in rows if "test" not in name}


def of_kit(own: dict[str, list[str]]) -> set[str]:
    """The crates of the kit that our own stand on, and std, which each stands on."""
    return {"std"}.union(*own.values()) - own.keys()


def uses_in_kit(kit: str, name: str) -> list[str]:
    """What a crate of the kit is linked with, as the head of its library has it."""
    with open(f"{kit}/rlibs/{name}.rlib/format", errors="replace") as head:
        lines = head.read().splitlines()
    return sorted(line.removeprefix("dep ") for line in lines if re.fullmatch(r"dep \w+", line))


def linked(kit: str, first: Iterable[str]) -> dict[str, list[str]]:
    """These crates, what they are linked with, and so on. The standard library has no library of its own."""
    found: dict[str, list[str]] = {}
    left = [*first]
    while left:
        name = left.pop()
        if name not in found:
            found[name] = uses_in_kit(kit, name) if os.path.isdir(f"{kit}/rlibs/{name}.rlib") else []
            left += found[name]
    return dict(sorted(found.items()))


def notice_files(folder: str) -> list[str]:
    """The names of the notices of one crate. Of two licences that one may choose from, one is taken."""
    names = sorted(it for it in os.listdir(folder) if it.startswith(("LICENSE", "NOTICE", "COPYING")))
    return [it for it in names if CHOICE.get(it) not in names]


def gathered(kit: str, top: str) -> dict[str, Any]:
    """What the kit says of each crate that the program links."""
    crates: dict[str, dict[str, Any]] = {}
    texts: dict[str, list[str]] = {}
    for name, uses in linked(kit, of_kit(crates_of(top))).items():
        folder = f"{kit}/rattle/{name}"
        page = f"{folder}/README.md"
        port = PORT.search(read(page)) if os.path.exists(page) else None
        crates[name] = {"uses": uses, **({"port_of": port[1], "version": port[2]} if port else {})}
        for file in notice_files(folder) if os.path.isdir(folder) else []:
            texts.setdefault(read(f"{folder}/{file}").strip(), []).append(name)
    return {"crates": crates, "notices": [{"crates": names, "text": text} for text, names in texts.items()]}


def kept(top: str) -> dict[str, Any]:
    return dict(json.loads(read(f"{top}/{KEPT}")))


def licence_of(text: str) -> str:
    """The name of a licence in the list of SPDX."""
    return next(name for name, says in KNOWN.items() if says in text)


def paragraph(notice: dict[str, Any]) -> str:
    """A notice in the form of Debian's copyright files, which name a licence that each Debian has."""
    text, names, licence = notice["text"], notice["crates"], licence_of(notice["text"])
    if licence == "Apache-2.0":
        text = "The text stands in /usr/share/common-licenses/Apache-2.0."
    holders = re.findall(r"^\s*Copyright (?:\([cC]\) )?(\S.*?)\.?$", text, re.M)
    lines = "\n".join(f" {line.rstrip()}" if line.strip() else " ." for line in text.splitlines())
    files = textwrap.fill(" ".join(f"kit/{it}/*" for it in names), 100, subsequent_indent=" ")
    told = "\n           ".join(holders or ["the authors, whom the text does not name"])
    return f"Files: {files}\nCopyright: {told}\nLicense: {licence}-{names[0]}\n{lines}\n"


def without_notice(known: dict[str, Any]) -> list[str]:
    return sorted(known["crates"].keys() - {name for notice in known["notices"] for name in notice["crates"]})


def copyright_of(top: str) -> str:
    """Debian's copyright file: what is ours, and a paragraph for each notice. Its head names the crates of the kit that
    have none."""
    known, (head, _, body) = kept(top), read(f"{top}/{OWN}").partition("\n\n")
    told = textwrap.fill("The program /usr/bin/index links crates of the Rattle kit. The paragraphs for kit/ are their "
                         f"notices. The kit has none for these: {', '.join(without_notice(known))}.", 100,
                         initial_indent=" ", subsequent_indent=" ")
    return "\n".join([f"{head}\nComment:\n{told}\n", body.rstrip() + "\n", *map(paragraph, known["notices"])])


def notices_of(top: str) -> str:
    """All notices whole, for whoever gets the program without a package."""
    known = kept(top)
    texts = [(["index"], read(f"{top}/LICENSE").strip()),
             *((it["crates"], it["text"]) for it in known["notices"])]
    told = f"The kit has no notice for these crates, which the program links too: {', '.join(without_notice(known))}."
    return "\n\n".join([*(f"==== {', '.join(names)} ====\n\n{text}" for names, text in texts),
                        textwrap.fill(told, 100)]) + "\n"


def component(name: str, version: str, licences: Iterable[str], **more: Any) -> dict[str, Any]:
    made = {"type": "library", "bom-ref": name, "name": name, "version": version, **more}
    named = [{"license": {"id": it}} for it in sorted(licences)]
    return {**made, **({"licenses": named} if named else {})}


def bill(top: str, package: str, version: str, kit: str, moment: str) -> str:
    """The parts of a package as CycloneDX has them: our crates, those of the kit, and which uses which."""
    known, own = kept(top), crates_of(top)
    licences: dict[str, set[str]] = {}
    for notice in known["notices"]:
        for name in notice["crates"]:
            licences.setdefault(name, set()).add(licence_of(notice["text"]))
    parts = [component(name, version, ["MIT"]) for name in own]
    for name, it in known["crates"].items():
        ancestor = {"pedigree": {"ancestors": [{
            "type": "library", "name": it["port_of"], "version": it["version"],
            "purl": f"pkg:cargo/{it['port_of']}@{it['version']}"}]}} if "port_of" in it else {}
        parts.append(component(name, kit, licences.get(name, ()), **ancestor))
    uses = {**own, **{name: it["uses"] for name, it in known["crates"].items()}}
    purl = f"pkg:deb/{package}@{version}?arch=amd64"
    whole = {**component(package, version, ["MIT"], purl=purl), "type": "application", "bom-ref": purl}
    made = {
        "bomFormat": "CycloneDX", "specVersion": "1.5", "version": 1,
        "serialNumber": f"urn:uuid:{uuid.uuid5(uuid.NAMESPACE_URL, purl)}",
        "metadata": {"timestamp": moment, "component": whole}, "components": parts,
        "dependencies": [{"ref": purl, "dependsOn": ["index"]},
                         *({"ref": name, "dependsOn": sorted(uses[name])} for name in sorted(uses))]}
    return json.dumps(made, indent=1) + "\n"
