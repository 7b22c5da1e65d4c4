"""What the pages for everybody say, from plain values: releases, wheels, and what is written."""
from __future__ import annotations

import json
import os
import re

import pytest
from indexctl.contents import FileRow
from indexctl.site import about, folder, needs, pages, projects
from indexctl.site.about import About
from indexctl.site.descriptions import Descriptions
from indexctl.site.log import Log
from indexctl.site.needs import Around
from indexctl.versions import is_final, is_release
from support.indexctl.projects import wheel_of
from support.indexctl.rows import OPENED, FakeIndex, case_of, held, reply
from support.indexctl.scripted import STANDING
from support.planted import catches


def file(name="frob-1.0-py3-none-any.whl", release="1.0", yanked=None, sha256="a" * 64, python="", size=1_024):
    return FileRow(name, release, size, python, yanked, sha256)


NOBODY = Around({}, {}, False)


class NoRenderer:
    """As without readme_renderer."""
    by, has_time = "", True


def descriptions(path):
    return Descriptions(str(path), NoRenderer())


def project(releases=(), newest="", said=about.NOTHING, **changed):
    return projects.Project(held(**changed), list(releases), newest, "", said)


@pytest.mark.parametrize("release, final", [("1.0", True), ("1.0.post1", True), ("1!2.0+local", True), ("1.0a1", False),
                                            ("1.0rc1", False), ("1.0.dev3", False), ("1.0.post1.dev2", False)])
def test_a_pre_release_is_not_final(release, final):
    assert is_release(release) and is_final(release) == final


def test_what_is_not_a_version_is_neither():
    assert not is_release("nightly") and not is_final("nightly")


@catches("indexctl/versions.py", r"(?:\+([a-z0-9]+(?:[._][a-z0-9]+)*))?", r"(?:\+([a-z0-9._]+))?",
         also=["test_a_release_that_no_installer_takes_is_never_the_newest"])
@pytest.mark.parametrize("local, is_one", [("a", True), ("ubuntu.1", True), ("5", True), ("a_b", True), ("a..b", False),
                                           (".a", False), ("a.", False), ("a__b", False), ("", False)])
def test_a_local_version_has_letters_or_digits_between_its_separators(local, is_one):
    """By PEP 440; a hyphen can't stand in a file name there."""
    assert is_release(f"1.0+{local}") is is_one


def test_a_release_that_no_installer_takes_is_never_the_newest():
    """pip takes 1.0 of these two."""
    releases = [("9.0+a..b", [file(release="9.0+a..b")]), ("1.0", [file(release="1.0")])]
    assert projects.newest_of(releases) == "1.0"


@catches("indexctl/site/projects.py", 'return next(filter(is_final, able), able[0] if able else "")',
         'return able[0] if able else ""')
@pytest.mark.parametrize("releases, newest", [
    ([("2.0", None), ("1.0", None)], "2.0"), ([("2.0", ""), ("1.0", None)], "1.0"),
    ([("2.0rc1", None), ("1.0", None)], "1.0"), ([("2.0rc1", None), ("1.0", "")], "2.0rc1"),
    ([("2.0", "bad"), ("1.0", "")], ""), ([("nightly", None)], ""), ([], "")])
def test_the_newest_release_is_the_one_that_an_installer_takes(releases, newest):
    assert projects.newest_of([(it, [file(release=it, yanked=yanked)]) for it, yanked in releases]) == newest


@catches("indexctl/site/projects.py", "for it in (*wheels, *files) if", "for it in wheels if")
def test_what_is_read_is_of_the_newest_release_or_the_newest_wheel():
    archive, new, old = file("frob-2.0.tar.gz", "2.0"), file("n.whl", "2.0"), file("o.whl", "1.0")
    assert projects.newest_file([("2.0", [archive, new]), ("1.0", [old])], "1.0") == old
    assert projects.newest_file([("2.0", [archive, new]), ("1.0", [old])], "2.0") == new
    assert projects.newest_file([("2.0", [archive]), ("1.0", [old])], "2.0") == archive
    assert projects.newest_file([("2.0", [archive]), ("1.0", [old])], "") == old
    assert projects.newest_file([("2.0", [archive])], "") is None


@catches("indexctl/site/projects.py", "if DIGEST.fullmatch(it.sha256)]", "if it.sha256 is not None]")
@pytest.mark.parametrize("digest", ["", "../../x", "A" * 64, "a" * 63])
def test_a_file_whose_digest_is_none_is_not_read(digest):
    """What it says is kept by its digest, in a file of that name."""
    assert projects.newest_file([("2.0", [file("n.whl", "2.0", sha256=digest)])], "2.0") is None


def test_releases_are_grouped_in_their_order():
    files = [file("a", "2.0"), file("b", "2.0"), file("c", "1.0")]
    assert [(release, [it.file for it in its]) for release, its in projects.releases_in(files)] == [
        ("2.0", ["a", "b"]), ("1.0", ["c"])]


FREE = reply(200, b'{"name": "frob", "state": "free"}')
NO_FILES = reply(404, b'{"name": "NoProject"}')


@pytest.mark.parametrize("replies", [(FREE, NO_FILES), (FREE, reply(200, b'{"files": []}')),
                                     (reply(200, json.dumps({**STANDING, "name": "frob"}).encode()), NO_FILES)])
def test_a_name_that_is_given_up_meanwhile_has_no_page(replies):
    assert projects.find_project(FakeIndex(*replies), {}, None, "frob") is None


@catches("indexctl/site/projects.py", "if about and descriptions.has(file.sha256, about.described):",
         "if about and not file:")
def test_a_wheel_is_read_once(tmp_path):
    body = wheel_of("frob", "1.0", "Summary: what it does\n")
    index, kept = FakeIndex(reply(200, body)), {}
    found = [projects.find_about(index, "frob", file(), kept, descriptions(tmp_path)) for _ in range(2)]
    assert found == [About("what it does")] * 2 and kept == {"a" * 64: About("what it does")}
    assert [it.path for it in index.asked] == ["/files/frob/frob-1.0-py3-none-any.whl"]


def test_a_wheel_whose_description_is_to_be_made_again_is_read_again(tmp_path):
    body = wheel_of("frob", "1.0", "Summary: what it does\n\nthe text\n")
    index, kept = FakeIndex(*[reply(200, body)] * 2), {}
    for by in ("one", "one", "another"):
        made = descriptions(tmp_path)
        made.by = by
        found = projects.find_about(index, "frob", file(), kept, made)
        assert found == About("what it does", described=by) and "the text" in made.html("a" * 64, by)
    assert len(index.asked) == 2


def test_a_wheel_that_is_gone_is_asked_for_again(tmp_path):
    kept, gone = {}, FakeIndex(reply(404, b""))
    assert projects.find_about(gone, "frob", file(), kept, descriptions(tmp_path)) == about.NOTHING and kept == {}


HOSTILE = "<b>&\"'\u202e"
SAFE = "&lt;b&gt;&amp;&quot;&#x27;\\u202e"


@catches("indexctl/site/pages.py", "host = text_of(urllib.parse.urlsplit(url).hostname)", "host = ''",
         also=["indexctl/test_site_said.py::test_a_page_says_what_the_newest_wheel_says"])
def test_a_home_page_is_linked_and_a_licence_named():
    address = "https://a.example/?x&amp;y"
    facts = dict(pages.facts_of_wheel(About("", "https://a.example/?x&y", "MIT")))
    assert facts == {"home page": f'<a href="{address}" rel="noreferrer nofollow">{address}</a>', "licence": "MIT"}
    links = ("Source", "https://ann@a.example:8/x"), ("", "https://b.example")
    facts = dict(pages.facts_of_wheel(About(links=links)))
    assert facts == {"links": '<ul><li><a href="https://ann@a.example:8/x" rel="noreferrer nofollow">Source</a> '
                     '<span class="soft">a.example</span></li><li><a href="https://b.example" '
                     'rel="noreferrer nofollow">b.example</a> <span class="soft">b.example</span></li></ul>'}
    assert dict(pages.facts_of_wheel(about.NOTHING)) == {}


def test_each_text_of_a_project_is_escaped():
    it = project([(HOSTILE, [file(HOSTILE, HOSTILE, HOSTILE, python=HOSTILE)])], HOSTILE,
                 About(HOSTILE, "https://a/?\"<", HOSTILE, ((HOSTILE, "https://a/?\"<"),), (HOSTILE,),
                       (f"b; {HOSTILE}",)), name="frob", shown=HOSTILE, owners=[HOSTILE],
                 case=case_of(candidate=HOSTILE, kind=HOSTILE))
    around = Around({"frob": ["b"], "b": []}, {HOSTILE: OPENED}, True)
    for made in (pages.project_page("https://h", it, "", around), pages.list_page("https://h", [it], around)):
        assert HOSTILE[:3] not in made and "\u202e" not in made and SAFE in made and '?"<' not in made


@pytest.mark.parametrize("kind, said", [("reuse", "to reuse the name"), ("continue", "to continue the project"),
                                        ("of a later version", "of a later version")])
def test_a_case_is_told_with_its_candidate_and_moment(kind, said):
    found = pages.case_text(case_of(opened=OPENED, kind=kind))
    assert found == f"bob asks for this name, {said}, since 2001-09-09 01:46 UTC"


def test_only_a_project_that_can_be_installed_says_how():
    assert pages.install_part("https://h", project()) == ""
    assert "pip install --index-url https://h/simple/ frob<" in pages.install_part("https://h", project(newest="1.0"))


@catches("indexctl/site/pages.py", '<h2 id="{place}">', "<h2>")
def test_a_page_leads_to_its_parts():
    it = project([("1.0", [file()])], "1.0", About(classifiers=("Topic :: b", "Topic :: a"), needs=("a",)))
    made = pages.project_page("https://h", it, "<p>text</p>", Around({"frob": ["b"]}, {}, False))
    assert re.findall('<a href="#(.*?)">', made) == re.findall('<h2 id="(.*?)">', made) == [
        "install", "description", "needs", "needed-by", "releases", "classifiers"]
    assert '<div class="description">\n<p>text</p>\n</div>' in made
    assert made.index("<li>Topic :: a</li>") < made.index("<li>Topic :: b</li>")
    bare = pages.project_page("https://h", project(name="frob"), "", Around({"frob": []}, {}, False))
    assert re.findall('<a href="#(.*?)">', bare) == ["releases"] and "No file has been uploaded yet." in bare


@catches("indexctl/site/pages.py", "MOST_OPEN = 8", "MOST_OPEN = 800")
def test_of_many_releases_the_newest_are_open():
    found = [(f"1.{at}", [file(release=f"1.{at}", yanked="x" if at in (0, 3) else None)]) for at in range(12, -1, -1)]
    told = "<details><summary>5 older releases, 2 yanked</summary>"
    shown, _, folded = pages.releases_part("frob", found, {}).partition(told)
    assert (shown.count("<section"), folded.count("<section")) == (8, 5) and folded.endswith("</details>\n")
    assert "<details>" not in pages.releases_part("frob", found[:8], {})
    assert "<summary>1 older release</summary>" in pages.releases_part("frob", found[:9], {})


@catches("indexctl/site/pages.py", '"all yanked" if is_yanked else "no release"', '"no release"')
@pytest.mark.parametrize("yanked, newest, said", [([], "", "no release"), ([None], "1.0", "1.0"),
                                                  (["x"], "", "all yanked"), ([None], "", "no release")])
def test_a_project_without_a_newest_release_says_why(yanked, newest, said):
    assert pages.newest_text(project([("1.0", [file(yanked=it)]) for it in yanked], newest)) == said


@catches("indexctl/site/pages.py", 'first="" if projects else first_steps(url)', 'first=""')
def test_an_empty_list_says_how_to_begin():
    made = pages.list_page("https://h", [], NOBODY)
    assert "Nothing is here yet" in made and "curl -fsSO https://h/indexctl<" in made
    assert '<ul class="box projects" hidden>' in made
    assert "Nothing is here yet" not in pages.list_page("https://h", [project()], NOBODY)


@catches("indexctl/site/pages.py", "uploaded.get(it.file)) for it in files)", "None) for it in files)",
         also=["indexctl/test_site_said.py::test_pages_and_a_feed_say_what_the_log_of_changes_says"])
@catches("indexctl/site/needs.py", "if files and all(it in uploaded for it in files) else None",
         "if files and any(it in uploaded for it in files) else None",
         ("indexctl/site/needs.py", "min(uploaded[it] for it in files)",
          "min(uploaded.get(it, 1 << 40) for it in files)"))
def test_upload_times_are_shown_as_far_as_they_are_known():
    releases = [("2.0", [file("a"), file("b")]), ("1.0", [file("c")])]
    it = project(releases, "2.0", name="frob")
    when = '<time datetime="2001-09-09T01:46:40Z">2001-09-09 01:46 UTC</time>'
    made = pages.project_page("https://h", it, "", Around({"frob": []}, {"a": OPENED, "b": OPENED + 60}, False))
    assert f"<dd>2.0, uploaded {when}</dd>" in made and made.count("uploaded") == 3
    # of one of two files it is not known when the release came
    made = pages.project_page("https://h", it, "", Around({"frob": []}, {"b": OPENED}, False))
    assert "<dd>2.0</dd>" in made and made.count(f"1.0 KiB, uploaded {when}") == made.count("uploaded") == 1


@catches("indexctl/site/folder.py", "is_there = os.path.exists(path)", "is_there = False")
def test_a_feed_is_named_if_there_is_one(tmp_path):
    for log in (Log(), None):
        folder.put_pages(str(tmp_path), "https://h", [], descriptions(tmp_path), log)
        made = (tmp_path / "index.html").read_text()
        assert made.count("feed.xml") == (2 if log else 0) and (tmp_path / "feed.xml").exists() == bool(log)
        assert 'href="projects.json"' in made


def test_a_page_of_its_own_says_that_there_is_none():
    made = pages.missing_page("https://h:8443/x<")
    assert "All packages of h:8443" in made and not re.findall('(?:href|src)="(?!/browse/)', made)


@catches("indexctl/site/pages.py", "page = normal(name)", "page = name",
         also=["indexctl/test_site_said.py::test_a_page_says_what_the_project_needs_and_what_needs_it"])
def test_needs_lead_to_projects_that_the_index_has():
    """By PEP 503 these spellings are one name."""
    held_names = {"other-one": []}
    assert pages.need_row("Other_.One[x] >=1; python_version < '3'", held_names) == (
        "<li><a href=\"other-one.html\">Other_.One</a> <span class=\"soft\">[x] &gt;=1; python_version &lt; "
        "&#x27;3&#x27;</span></li>\n")
    assert pages.need_row("requests", held_names) == '<li>requests <span class="soft"></span></li>\n'


@catches("indexctl/site/needs.py", "{normal(need[0]) for", "{need[0] for",
         also=["indexctl/test_site_said.py::test_a_page_says_what_the_project_needs_and_what_needs_it",
               "indexctl/test_site_said.py::test_programs_get_all_projects_as_json"])
def test_each_project_has_those_that_need_it():
    found = [project(name=name, said=About(needs=wanted)) for name, wanted in (
        ("a", ("B_b>=1", "b-b; extra == 'x'", "requests")), ("b-b", ()), ("c", ("b.b", "a", "c")))]
    assert needs.needed_by(found) == {"a": ["c"], "b-b": ["a", "c"], "c": ["c"]}


@catches("indexctl/site/pages.py", "users[:MOST_SHOWN]", "users")
def test_of_many_users_the_first_stand_on_the_page():
    made = pages.users_part([f"n{at}" for at in range(203)])
    assert made.count("<a ") == 200 and made.endswith("<li>and 3 more</li>\n</ul>\n")
    assert "more" not in pages.users_part([f"n{at}" for at in range(200)]) and pages.users_part([]) == ""


@catches("indexctl/site/needs.py", "if files[0].yanked is not None]", "]",
         also=["indexctl/test_site_said.py::test_programs_get_all_projects_as_json"])
def test_projects_json_has_what_the_pages_say():
    said = About("s", "https://a", "MIT", (("Source", "https://b"),), ("c",), ("b>=1",))
    found = [project([("2.0", [file("a"), file("b")]), ("1.0", [file("c", yanked="bad")])], "2.0", said, name="frob",
                     shown="Frob", charge=5), project(name="b", case=case_of())]
    around = Around({"frob": [], "b": ["frob"]}, {"a": OPENED + 1, "b": OPENED, "c": 1}, True)
    made = json.loads("".join(needs.json_of("https://h", found, around)))
    assert made["index"] == "https://h"
    assert made["projects"][0] == {
        "name": "frob", "shown": "Frob", "owners": ["ann"], "newest": "2.0",
        "uploaded": "2001-09-09T01:46:40Z", "releases": ["2.0", "1.0"],
        "yanked": ["1.0"], "files": 3, "charge": 5, "quota": 1_000, "case": False, "summary": "s", "home": "https://a",
        "licence": "MIT", "links": [["Source", "https://b"]], "classifiers": ["c"], "needs": ["b>=1"], "needed_by": []}
    assert [made["projects"][1][it] for it in ("case", "needed_by", "uploaded")] == [True, ["frob"], None]
    assert json.loads("".join(needs.json_of("https://h", [], NOBODY))) == {"index": "https://h", "projects": []}


@catches("indexctl/site/folder.py", "os.makedirs(inner, exist_ok=True)",
         'os.makedirs(inner, exist_ok=True); remove_others(inner, [f"{it.standing.name}.html" for it in projects])')
def test_the_list_is_written_between_the_new_pages_and_the_old_ones(tmp_path, monkeypatch):
    folder.put_pages(str(tmp_path), "https://h", [project(name="old")], descriptions(tmp_path), None)
    steps, replace, remove = [], os.replace, os.remove
    monkeypatch.setattr(os, "replace", lambda one, two: steps.append(os.path.basename(two)) or replace(one, two))
    monkeypatch.setattr(os, "remove", lambda path: steps.append(f"-{os.path.basename(path)}") or remove(path))
    assert folder.put_pages(str(tmp_path), "https://h", [project(name="new")], descriptions(tmp_path), None) == 4
    assert [it for it in steps if not it.endswith(".part")] == ["new.html", "projects.json", "index.html", "-old.html"]
