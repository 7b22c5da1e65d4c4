"""The file of publishers: what it says, and what is wrong in it with its line."""
import re

import pytest
from support.library import ends, publishers
from support.places import TOP
from support.planted import catches

WELL = """[index]
audience = packages.example

# who signs
[issuer gitlab]
url = https://gitlab.example
keys = https://gitlab.example/oauth/discovery/keys
algorithms = RS256 ES256

[publisher frob]
issuer = gitlab
claim.project_path = team/frob
claim.ref_protected = true
user = frobci
projects = frob
    frob-extras
"""


def read(tmp_path, text):
    (tmp_path / "publishers.ini").write_text(text)
    return publishers.publishers_in(f"{tmp_path}/publishers.ini")


def test_what_a_file_says(tmp_path):
    found = read(tmp_path, WELL)
    assert found.audience == "packages.example"
    assert found.issuers == {"gitlab": ("gitlab", "https://gitlab.example",
                                        "https://gitlab.example/oauth/discovery/keys", ("RS256", "ES256"))}
    assert found.publishers == {"frob": ("frob", "gitlab", {"project_path": "team/frob", "ref_protected": "true"},
                                         "frobci", ("frob", "frob-extras"))}


def test_an_issuer_may_come_behind_its_publisher(tmp_path):
    head, issuer, publisher = re.split(r"(?=# who)|(?=\[publisher)", WELL)
    assert read(tmp_path, f"{head}{publisher}\n{issuer}").publishers["frob"].issuer == "gitlab"


@catches("server/lib/package_index/publishers.py", 'self.refuse_at(section, key, f"`{key}` is not known here")',
         "continue",
         also=["server/test_unit_publisher_keys.py::test_what_is_wrong_in_the_file_is_told_and_nothing_is_fetched"])
@catches("server/lib/package_index/publishers.py", "if not known & claims.keys():", "if not claims:",
         also=["server/test_trusted_publishing.py::test_a_file_that_is_wrong_ends_the_service_at_its_start"])
@pytest.mark.parametrize("old, new, line, said", [
    ("[index]\n", "", 1, "a section such as `[publisher frob]` has to come first"),
    ("user = frobci", "user: frobci", 14, "this is not a line such as `user = frobci`"),
    ("user = frobci", "user = frobci\nuser = other", 15, "this stands twice"),
    ("[publisher frob]", "[issuer gitlab]", 10, "this stands twice"),
    ("[publisher frob]", "[publishers frob]", 10, "this is none of [index], [issuer NAME] and [publisher NAME]"),
    ("[publisher frob]", "[publisher ../frob]", 10, "this is none of"),
    ("[publisher frob]", "[publisher]", 10, "this is none of"),
    ("[index]", "[index one]", 1, "this is none of"),
    ("audience = packages.example", "", 1, "[index] says no `audience`"),
    ("url = https://gitlab.example", "url = http://gitlab.example", 6, "is not an address such as https://"),
    ("url = https://gitlab.example", "url = https://a b", 6, "is not an address"),
    ("keys = https://gitlab.example", "keys = file:///etc", 7, "is not an address"),
    ("keys = https://gitlab.example/oauth/discovery/keys\n", "", 5, "[issuer gitlab] says no `keys`"),
    ("RS256 ES256", "RS256 HS256", 8, "HS256 is not one of RS256, ES256"),
    ("RS256 ES256", "none", 8, "none is not one of"),
    ("algorithms = RS256 ES256", "algorithms =", 8, "[issuer gitlab] says no `algorithms`"),
    ("issuer = gitlab", "issuer = github", 11, "there is no [issuer github]"),
    ("claim.project_path", "claims.project_path", 12, "`claims.project_path` is not known here"),
    ("claim.project_path", "project_path", 12, "`project_path` is not known here"),
    ("claim.project_path = team/frob\n", "", 10, "no claim says the project: "),
    ("claim.ref_protected = true\n", "", 10, "no claim says the branch, tag or environment: "),
    ("claim.ref_protected = true", "claim.ref_protected =", 13, "says no `claim.ref_protected`"),
    ("user = frobci", "user = Frob/CI", 14, "Frob/CI is not the id of a user"),
    ("projects = frob\n    frob-extras", "projects = Frob.Extras", 15, "Frob.Extras is not the normal form"),
    ("projects = frob\n    frob-extras", "", 10, "[publisher frob] says no `projects`"),
    ("[publisher frob]", "[issuer other]\nurl = https://gitlab.example\nkeys = https://x\nalgorithms = RS256\n"
     "[publisher frob]", 11, "another issuer has this address")])
def test_what_is_wrong_is_told_with_its_line(tmp_path, old, new, line, said):
    assert old in WELL
    with pytest.raises(ends.Refused) as refused:
        read(tmp_path, WELL.replace(old, new, 1))
    assert str(refused.value).startswith(f"{tmp_path}/publishers.ini, line {line}: "), refused.value
    assert said in str(refused.value)


@catches("server/lib/package_index/publishers.py", "return all(isinstance(claims.get(it), str) and",
         "return any(isinstance(claims.get(it), str) or",
         also=["server/test_trusted_publishing.py::"
               "test_an_identity_token_is_refused_and_nothing_is_uploaded[other project]",
               "server/test_trusted_publishing.py::"
               "test_an_identity_token_is_refused_and_nothing_is_uploaded[unprotected]"])
@catches("server/lib/package_index/publishers.py", "isinstance(claims.get(it), str) and claims[it] == value",
         "str(claims.get(it)).lower() == value",
         also=["server/test_trusted_publishing.py::"
               "test_an_identity_token_is_refused_and_nothing_is_uploaded[protected as no text]"])
@pytest.mark.parametrize("claims, fits", [
    ({"project_path": "team/frob", "ref_protected": "true", "more": 1}, True),
    ({"project_path": "team/frob", "ref_protected": True}, False),
    ({"project_path": ["team/frob"], "ref_protected": "true"}, False),
    ({"project_path": "team/frob"}, False), ({}, False),
    ({"project_path": "Team/frob", "ref_protected": "true"}, False),
    ({"project_path": "team/frob2", "ref_protected": "true"}, False)])
def test_a_pipeline_fits_by_each_claim_to_the_letter(tmp_path, claims, fits):
    assert read(tmp_path, WELL).publishers["frob"].fits(claims) is fits


def test_the_file_of_the_page_is_well(tmp_path):
    with open(f"{TOP}/docs/operators/INSTALL.md", encoding="utf-8") as page:
        text = re.search(r"^cat > /etc/package-index/publishers.ini <<'END'\n(.*?)^END$", page.read(), re.M | re.S)[1]
    found = read(tmp_path, text)
    assert {it.url for it in found.issuers.values()} == {"https://gitlab.example.org",
                                                         "https://token.actions.githubusercontent.com"}
    assert {it.issuer for it in found.publishers.values()} == {*found.issuers}
