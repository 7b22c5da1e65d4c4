"""Whose work the program has in it, and on what terms: the notices in the package, and the list of its parts."""
from __future__ import annotations

import json
import re
import shutil

import notices
import pytest
from lanes import kit
from support.places import TOP
from support.planted import catches
from support.running import write_below

# the terms that each of these licences asks to be passed on, in their own words
MIT, BSD = "The above copyright notice and this permission notice", "Redistributions in binary form must reproduce"


@pytest.fixture
def known():
    return notices.kept(TOP)


def test_each_crate_that_is_linked_is_named(known):
    crates = known["crates"]
    assert notices.of_kit(notices.crates_of(TOP)) <= crates.keys() and {"clap", "sqlite", "std"} <= crates.keys()
    assert {use for it in crates.values() for use in it["uses"]} <= crates.keys()


def test_each_port_has_a_notice(known):
    named = {name for it in known["notices"] for name in it["crates"]}
    ports = {name for name, it in known["crates"].items() if "port_of" in it}
    assert {"hex", "http", "matchit", "serde_json"} <= ports and not ports - named and named <= known["crates"].keys()


@pytest.mark.skipif(not shutil.which("rt"), reason="the kit is not installed")
def test_the_notices_are_those_of_the_kit(known):
    """If not, run tools/gather-notices."""
    assert notices.gathered(kit().KIT, TOP) == known


FORMAT = "rattle rlib\ndep inner\ndependence\n"


@catches("tools/lib/notices.py", "left += found[name]", "pass")
def test_what_a_crate_links_in_turn_is_gathered_with_all_its_notices(tmp_path):
    for path, text in (
            ("top/crates.txt", "# own\nown:\nindex: own outer\nindex_tests: never\n"),
            ("kit/rlibs/outer.rlib/format", FORMAT), ("kit/rlibs/inner.rlib/format", ""),
            ("kit/rattle/outer/LICENSE-MIT", "mit\n"), ("kit/rattle/outer/LICENSE-APACHE", "apache\n"),
            ("kit/rattle/outer/README.md", "After the Rust crate `outer-rs` 1.2.3.\n"),
            ("kit/rattle/inner/LICENSE", "mit\n"), ("kit/rattle/inner/NOTICE", "notice\n"),
            ("kit/rattle/inner/README.md", "No port.\n")):
        write_below(tmp_path, path, text)
    assert notices.gathered(f"{tmp_path}/kit", f"{tmp_path}/top") == {
        "crates": {"inner": {"uses": []}, "outer": {"uses": ["inner"], "port_of": "outer-rs", "version": "1.2.3"},
                   "std": {"uses": []}},
        "notices": [{"crates": ["inner", "outer"], "text": "mit"}, {"crates": ["inner"], "text": "notice"}]}


@catches("tools/lib/notices.py", '*map(paragraph, known["notices"])])', '*map(paragraph, known["notices"][1:])])')
def test_the_copyright_file_of_the_package_has_each_notice(known, looked):
    text = notices.copyright_of(TOP)
    paragraphs = text.split("\n\n")
    for notice in known["notices"]:
        for name in notice["crates"]:
            looked(any(f"kit/{name}/*" in it.partition("Copyright:")[0] for it in paragraphs), name)
        lines = [line.strip() for line in notice["text"].splitlines() if line.strip()]
        if "Apache License" not in notice["text"]:
            looked("\n".join(lines) in re.sub(r"\n \.?\s*", "\n", text), notice["crates"])
            looked(MIT in " ".join(lines) or BSD in " ".join(lines), notice["text"])
    for name in known["crates"]:
        looked(re.search(rf"\b{name}\b", text), name)
    looked(text.startswith("Format: https://www.debian.org/") and "\nFiles: *\n" in text, text[:200])
    looked("/usr/share/common-licenses/Apache-2.0" in text, "Apache")


@catches("tools/lib/notices.py", '*((it["crates"], it["text"]) for it in known["notices"])]',
         '*((it["crates"], it["text"]) for it in known["notices"][:9])]')
def test_the_notices_of_a_release_are_whole(known, looked):
    text = notices.notices_of(TOP)
    for notice in known["notices"]:
        looked(f"==== {', '.join(notice['crates'])} ====\n\n{notice['text']}\n" in text, notice["crates"])
    with open(f"{TOP}/LICENSE", encoding="utf-8") as own:
        looked(own.read().strip() in text, "LICENSE")


@catches("tools/lib/notices.py", "uses = {**own, **{name", "uses = {**{name")
def test_the_list_of_parts_names_each_crate_and_what_it_uses(known, looked):
    """As the schema of CycloneDX 1.5 has it."""
    made = [notices.bill(TOP, "package-index", "1.2.3", "rattle-kit-1", "2030-01-02T03:04:05Z") for _ in range(2)]
    looked(made[0] == made[1], "the same bytes")
    bill = json.loads(made[0])
    looked((bill["bomFormat"], bill["specVersion"], bill["version"]) == ("CycloneDX", "1.5", 1), bill)
    looked(re.fullmatch(r"urn:uuid:[0-9a-f]{8}(-[0-9a-f]{4}){3}-[0-9a-f]{12}", bill["serialNumber"]), bill)
    parts = {it["bom-ref"]: it for it in bill["components"]}
    looked(parts.keys() == {*notices.crates_of(TOP), *known["crates"]}, parts.keys())
    looked(len(parts) == len(bill["components"]), "each once")
    looked(all(it["type"] == "library" and it["name"] and it["version"] for it in parts.values()), parts)
    whole = bill["metadata"]["component"]
    looked(whole["purl"] == "pkg:deb/package-index@1.2.3?arch=amd64", whole)
    uses = {it["ref"]: it["dependsOn"] for it in bill["dependencies"]}
    looked(uses.keys() == {*parts, whole["bom-ref"]} and {it for those in uses.values() for it in those} <= {*parts},
           uses)
    looked(uses["index_message"] == ["httparse", "index_io", "index_names", "index_rules", "matchit",
                                     "percent_encoding"], uses["index_message"])
    ancestor, = parts["hex"]["pedigree"]["ancestors"]
    looked(ancestor["purl"] == "pkg:cargo/hex@0.4.3" and parts["hex"]["version"] == "rattle-kit-1", parts["hex"])
    looked([it["license"]["id"] for it in parts["matchit"]["licenses"]] == ["BSD-3-Clause", "MIT"], parts["matchit"])
