"""What a wheel or a source archive says of its project, whoever made it."""
from __future__ import annotations

import dataclasses
import io
import json
import tarfile
import zipfile

import pytest
from indexctl.site import about
from indexctl.site.about import About, Description
from support.indexctl.projects import wheel_of
from support.planted import catches


@catches("indexctl/site/about.py", "if is_address(url) and not (", "if not (")
@catches("indexctl/site/about.py", "return (found[1], found[2]) if found and is_name(found[1]) else None",
         "return (found[1], found[2]) if found else (text, '')",
         also=["test_what_was_kept_and_is_not_of_its_kind_is_read_again"])
@pytest.mark.parametrize("headers, said", [
    ("Summary: one\n  two\nLicense: A\n  B\n", About("one", "", "A")),
    ("Summary: UNKNOWN\nHome-page: UNKNOWN\nLicense: UNKNOWN\n", About()),
    ("Home-page: https://a.example\nProject-URL: Homepage, https://a.example\n", About("", "https://a.example")),
    ("Project-URL: Source, https://a.example\nProject-URL: home-page, http://b.example/x\n",
     About("", "http://b.example/x", links=(("Source", "https://a.example"),))),
    ("Project-URL: Source, javascript:alert(1)\nProject-URL: Docs\nProject-URL: , https://a.example\n",
     About(links=(("", "https://a.example"),))),
    ("Home-page: https://a.example\nProject-URL: Home page, https://b.example\n",
     About("", "https://a.example", links=(("Home page", "https://b.example"),))),
    (f"Project-URL: {'x' * 40}, https://a.example\n", About(links=(("x" * 32, "https://a.example"),))),
    ("Classifier: Topic :: Text\n" * 3, About(classifiers=("Topic :: Text",))),
    ("Requires-Dist: requests [security,tests] >= 2.8.1 ; python_version < '2.7'\nRequires-Dist: A.b-C_d\n"
     "Requires-Dist: pip @ https://a.example/pip.zip\nRequires-Dist: pytest (>=3); extra == 'test'\n",
     About(needs=("requests [security,tests] >= 2.8.1 ; python_version < '2.7'", "A.b-C_d",
                  "pip @ https://a.example/pip.zip", "pytest (>=3); extra == 'test'"))),
    ("Requires-Dist: <b>\nRequires-Dist: a-\nRequires-Dist: " + "a" * 129 + "\nRequires-Dist: \n", About()),
    ("Home-page: javascript:alert(1)\n", About()), ("Home-page: https://\n", About()),
    ("Home-page: data:text/html,x\n", About()), ("Home-page: https://[x\n", About()),
    ("Home-page: https://a.example/\u202ex\n", About()), ("Home-page: https://a.example/ x\n", About()),
    ("License-Expression: MIT OR Apache-2.0\nLicense: x\n", About("", "", "MIT OR Apache-2.0")),
    ("Classifier: Topic :: Text\nClassifier: License :: OSI Approved :: MIT License\n"
     "Classifier: License :: OSI Approved :: BSD License\n", About(
         "", "", "MIT License, BSD License", (), ("Topic :: Text", "License :: OSI Approved :: MIT License",
                                                  "License :: OSI Approved :: BSD License"))),
    ("Summary:\n  on the next line\n", About("on the next line")),
    (f"Summary: {'x' * 301}\n", About("x" * 300)), ("Summary: \u00fcber\n", About("\u00fcber")), ("", About())])
def test_a_wheel_says_summary_links_licence_and_classifiers(headers, said):
    assert about.read_about("frob.whl", wheel_of("frob", "1.0", headers)) == (said, about.NO_TEXT)


@catches("indexctl/site/about.py", r'INDENTED.sub("\n", str(headers["Description"] or ""))', '""')
@pytest.mark.parametrize("headers, description", [
    ("Description-Content-Type: text/markdown; charset=UTF-8; variant=GFM\n\n# a\n",
     Description("# a\n", "text/markdown")),
    ("Description-Content-Type: Text/X-RST\n\na\n\nb\n", Description("a\n\nb\n", "text/x-rst")),
    ("\na\n", Description("a\n", "text/x-rst")), ("\n \n", about.NO_TEXT),
    ("Description: one\n        two\n         three\n", Description("one\ntwo\n three", "text/x-rst")),
    ("Description: one\n       |two\n", Description("one\ntwo", "text/x-rst")),
    ("Description: UNKNOWN\n", about.NO_TEXT)])
def test_a_description_stands_behind_the_headers_or_in_one(headers, description):
    """Examples of the specification of core metadata."""
    assert about.read_about("frob.whl", wheel_of("frob", "1.0", headers))[1] == description


def source_of(*files):
    body = io.BytesIO()
    with tarfile.open(fileobj=body, mode="w:gz") as made:
        for name, data in files:
            entry = tarfile.TarInfo(name)
            entry.size = len(data)
            made.addfile(entry, io.BytesIO(data))
    return body.getvalue()


PKG_INFO = "frob-1.0/PKG-INFO", b"Summary: x\n\ntext"


@catches("indexctl/site/about.py", "(headers.get_all(name) or [])[:MOST_LINES]", "headers.get_all(name) or []")
def test_of_many_classifiers_links_and_needs_the_first_are_taken():
    headers = "".join(f"Classifier: a{at}\nProject-URL: a{at}, https://a.example\nRequires-Dist: a{at}\n"
                      for at in range(5_000))
    found = about.read_about("frob.whl", wheel_of("frob", "1.0", headers))[0]
    assert len(found.classifiers) == len(found.links) == len(found.needs) == about.MOST_LINES


def archive_of(name, data, compression=zipfile.ZIP_DEFLATED):
    body = io.BytesIO()
    with zipfile.ZipFile(body, "w", compression) as made:
        made.writestr(name, data)
    return body.getvalue()


METADATA = "frob-1.0.dist-info/METADATA"
GOOD = archive_of(METADATA, b"Summary: x\n" * 50)
ENCRYPTED = bytearray(GOOD)
ENCRYPTED[GOOD.index(b"PK\1\2") + 8] |= 1
ENCRYPTED[6] |= 1
SPOILT = bytearray(GOOD)
SPOILT[GOOD.index(METADATA.encode()) + len(METADATA) + 3] ^= 0xff
# behind the nine bytes that say how it is compressed
SPOILT_LZMA = bytearray(archive_of(METADATA, b"Summary: x\n" * 50, zipfile.ZIP_LZMA))
SPOILT_LZMA[SPOILT_LZMA.index(METADATA.encode()) + len(METADATA) + 9] ^= 0xff


@catches("indexctl/site/about.py", "inside.read(MOST_METADATA)", "inside.read()")
def test_of_a_long_metadata_the_beginning_is_read():
    first = b"Summary: x\nA: ".ljust((1 << 20) - 1, b"b") + b"\n"
    found = about.read_about("frob.whl", archive_of(METADATA, first + b"Home-page: https://a.example\n"))
    assert found == (About("x"), about.NO_TEXT)


KEPT = {"summary": "s", "home": "https://a", "licence": "l", "links": [["Source", "https://b"]],
        "classifiers": ["c"], "needs": ["frob>=1"], "described": "x"}


@catches("indexctl/site/about.py", "set(found) != {it.name for it in dataclasses.fields(About)}", "not found")
@pytest.mark.parametrize("key", KEPT)
def test_what_was_kept_by_an_older_version_is_read_again(key):
    assert about.about_from({it: KEPT[it] for it in KEPT if it != key}) is None


@catches("indexctl/site/about.py", "return About(**{**found, **lists})", "return None",
         also=["indexctl/test_unit_site_folder.py::test_what_wheels_said_is_kept_between_runs"])
def test_what_was_kept_is_taken():
    found = about.about_from(dict(KEPT))
    assert found == About("s", "https://a", "l", (("Source", "https://b"),), ("c",), ("frob>=1",), "x")
    assert about.about_from(json.loads(json.dumps(dataclasses.asdict(found)))) == found


@catches("indexctl/archives.py", "STEADY = zipfile.ZIP_STORED, zipfile.ZIP_DEFLATED",
         "STEADY = zipfile.ZIP_STORED, zipfile.ZIP_DEFLATED, zipfile.ZIP_BZIP2, zipfile.ZIP_LZMA",
         also=["indexctl/test_site_memory.py::test_no_wheel_takes_the_memory_of_the_machine_and_the_run_goes_on"])
@pytest.mark.parametrize("way", [zipfile.ZIP_BZIP2, zipfile.ZIP_LZMA])
def test_a_small_wheel_takes_no_gigabytes(way):
    """By these ways zipfile takes out all at once, of which a small wheel can hold any amount."""
    made = io.BytesIO()
    with zipfile.ZipFile(made, "w", way) as wheel:
        wheel.writestr("frob-1.0.dist-info/METADATA", "Metadata-Version: 2.1\nSummary: x\n")
    assert about.read_about("frob.whl", made.getvalue()) == (about.NOTHING, about.NO_TEXT)


@catches("indexctl/site/about.py", "it is None or it.offset_data + it.size > MOST_UNPACKED", "it is None")
@pytest.mark.parametrize("body, said", [
    (source_of(("frob-1.0/LICENSE", b"a"), PKG_INFO), About("x")),
    (source_of(("frob-1.0/frob.egg-info/PKG-INFO", b"Summary: y\n"), PKG_INFO), About("x")),
    (source_of(("frob-1.0/big", bytes((1 << 20) + 1)), PKG_INFO), about.NOTHING),
    (source_of(*[("a", b"")] * 20, PKG_INFO), about.NOTHING), (source_of(PKG_INFO)[:60], about.NOTHING),
    (source_of(), about.NOTHING), (b"no archive", about.NOTHING)],
    ids=["well", "two", "behind much", "behind many", "cut", "empty", "no archive"])
def test_a_source_archive_says_the_same_if_it_says_it_soon(body, said, monkeypatch):
    assert about.MOST_UNPACKED == 64 << 20 and about.MOST_PASSED == 20_000
    monkeypatch.setattr(about, "MOST_UNPACKED", 1 << 20)
    monkeypatch.setattr(about, "MOST_PASSED", 20)
    found = about.read_about("frob-1.0.tar.gz", body)
    assert found == (said, Description("text", "text/x-rst") if said.summary else about.NO_TEXT)


@catches("indexctl/site/about.py", "except Exception:", "except (zipfile.BadZipFile, zipfile.zlib.error, OSError):")
@pytest.mark.parametrize("body", [b"", b"no archive", archive_of("METADATA", b"Summary: x\n"),
                                  archive_of("a/frob.dist-info/METADATA", b"Summary: x\n"),
                                  archive_of("frob.dist-info/METADATA.txt", b"Summary: x\n"), bytes(ENCRYPTED),
                                  bytes(SPOILT), bytes(SPOILT_LZMA), GOOD[:-30]],
                         ids=["empty", "text", "outside", "deeper", "longer", "encrypted", "spoilt", "spoilt LZMA",
                              "cut"])
def test_a_wheel_that_can_t_be_read_says_nothing(body):
    assert about.read_about("frob.whl", body) == (about.NOTHING, about.NO_TEXT)


@catches("indexctl/site/about.py", "*(url for _, url in links)])):", "])):")
@pytest.mark.parametrize("changed", [
    None, [], {"summary": 1}, {"home": "javascript:alert(1)"}, {"links": [["Source", "javascript:alert(1)"]]},
    {"links": [["https://b"]]}, {"links": [[1, "https://b"]]}, {"links": {}}, {"classifiers": "c"},
    {"classifiers": [1]}, {"needs": ["<b>"]}, {"needs": [1]}, {"described": None}, {"more": ""}])
def test_what_was_kept_and_is_not_of_its_kind_is_read_again(changed):
    assert about.about_from({**KEPT, **changed} if isinstance(changed, dict) else changed) is None
