"""What the pages for everybody say of projects, whose texts are hostile, as a browser shows it."""
from __future__ import annotations

import json
import re
import xml.etree.ElementTree

import pytest
from support.indexctl.control import put
from support.indexctl.projects import REASON
from support.indexctl.sample import MARKUP
from support.indexctl.site import COUNT, FJORD, PEOPLE, read
from support.needed import want_module
from support.planted import catches

pytestmark = pytest.mark.xdist_group("site_said")


def test_pages_and_a_feed_say_what_the_log_of_changes_says(site, chromium):
    chromium.go(f"{site.front.url}{FJORD}")
    said = chromium.text()
    assert "newest release\n2.0\n" in said and said.count("uploaded 2026-11-30 06:00 UTC") == 1
    root = xml.etree.ElementTree.fromstring(site.front.ask("GET", "/browse/feed.xml")[2])
    assert [it.text for it in root.iter("{http://www.w3.org/2005/Atom}title")] == [
        "Changes of packages.example", "fjord-queue 2.1 was yanked", "fjord-queue fjord_queue-2.0.tar.gz was uploaded"]
    chromium.go(f"{site.front.url}/browse/")
    assert chromium.value("document.querySelector('link[rel=alternate]').href") == f"{site.front.url}/browse/feed.xml"


def test_the_policy_lets_a_page_ask_its_own_host_alone(site, chromium):
    """As if what looks at descriptions let all of this through."""
    path, elsewhere = f"{site.folder}/projects/inkwell.html", "http://127.0.0.1:9/"
    before = read(path)
    put(path, before.replace("</main>", f"""
        <img src="{elsewhere}a.png"><img src="data:image/gif;base64,R0lGODlhAQABAAAAACw="><iframe src="{elsewhere}b">
        </iframe><link rel="stylesheet" href="{elsewhere}c.css"><object data="{elsewhere}d"></object>
        <video src="{elsewhere}e"></video><script src="{elsewhere}f.js"></script><img src="/browse/icon.svg">
        </main>"""), 0o644)
    try:
        chromium.go(f"{site.front.url}/browse/projects/inkwell.html")
        assert chromium.received() == {f"{site.front.url}/browse/{it}" for it in (
            "projects/inkwell.html", "style.css", "site.js", "icon.svg")}
        widths = chromium.value("Array.from(document.images, function (it) { return it.naturalWidth; })")
        assert [it > 0 for it in widths] == [False, False, True]
    finally:
        put(path, before, 0o644)


def test_a_description_is_rendered_and_does_nothing(site, chromium):
    want_module("readme_renderer", "python3-readme-renderer")
    chromium.look()
    chromium.go(f"{site.front.url}{FJORD}")
    assert chromium.value("document.querySelector('.description h3').textContent") == "Fjord"
    assert chromium.value("document.querySelectorAll('.description td').length") == 2
    assert chromium.value("document.querySelectorAll('.description *').length") == chromium.value(
        "document.querySelectorAll('.description :is(h3, p, b, table, thead, tbody, tr, th, td)').length")
    assert chromium.value("document.querySelector('.description b').id") == "text-find"
    chromium.value("document.querySelector('.description b').click()")
    assert chromium.value("document.title") == "Fjord.Queue \u00b7 packages.example"
    assert chromium.value("document.querySelectorAll('.description a').length") == 0
    assert "\\u202ex" in chromium.text() and "built" in chromium.text()


@catches("indexctl/page.py", "return html.escape(printable(value))", "return printable(value)",
         also=["indexctl/test_unit_site.py::test_each_text_of_a_project_is_escaped"])
@catches("indexctl/page.py", "return html.escape(printable(value))", "return html.escape(str(value))",
         also=["indexctl/test_unit_site.py::test_each_text_of_a_project_is_escaped",
               "indexctl/test_unit_page.py::test_no_text_turns_the_line"])
@catches("indexctl/site/about.py",
         'return parts.scheme in ("http", "https") and bool(parts.hostname) and text.isprintable() and " " not '
         "in text", "return bool(parts.scheme)",
         also=["test_a_page_says_what_the_newest_wheel_says",
               "indexctl/test_unit_about.py::test_a_wheel_says_summary_links_licence_and_classifiers",
               "indexctl/test_unit_about.py::test_what_was_kept_and_is_not_of_its_kind_is_read_again"])
def test_texts_of_strangers_are_texts(site, chromium):
    chromium.look()
    chromium.go(f"{site.front.url}{FJORD}")
    said = chromium.text()
    assert said.count(MARKUP) >= 2 and REASON in said
    assert "\\u202e" in said and "\u202e" not in chromium.value("document.documentElement.outerHTML")
    assert chromium.value("document.title") == "Fjord.Queue \u00b7 packages.example"
    assert chromium.value("document.querySelectorAll('script').length") == 1
    links = chromium.value("Array.from(document.links, function (it) { return it.protocol; })")
    assert set(links) == {"https:"}
    chromium.go(f"{site.front.url}/browse/")
    assert MARKUP in chromium.text() and "\u202e" not in chromium.value("document.documentElement.outerHTML")


def test_a_script_that_gets_into_a_page_does_not_run(site, chromium):
    path = f"{site.folder}/projects/inkwell.html"
    before = read(path)
    put(path, before.replace("</main>", "<script>document.title = 'taken'</script></main>"), 0o644)
    try:
        chromium.go(f"{site.front.url}/browse/projects/inkwell.html")
        assert chromium.value("document.title") == "inkwell \u00b7 packages.example"
        assert any("Content Security Policy" in it for it in chromium.console)
    finally:
        put(path, before, 0o644)


@catches("indexctl/site/projects.py", "if files[0].yanked is None and is_release(release)]", "if is_release(release)]",
         also=["indexctl/test_unit_site.py::test_the_newest_release_is_the_one_that_an_installer_takes"])
def test_releases_come_newest_first_with_files_digests_and_yanks(site, chromium):
    chromium.look()
    chromium.go(f"{site.front.url}{FJORD}")
    heads = chromium.value("Array.from(document.querySelectorAll('section h3'),"
                           "function (it) { return it.textContent; })")
    assert heads == ["2.1", "2.0", "2.0rc1", "1.10", "1.9"]
    said = chromium.text()
    assert "newest release\n2.0\n" in said and "Yanked: loses" in said and said.count("Yanked") == 1
    assert said.count("Python >=3.8, <4") == 5
    assert len(set(re.findall(r"SHA-256 ([0-9a-f]{64})\n", said))) == 6
    assert "fjord_queue-2.0.tar.gz 28 B, uploaded 2026-11-30 06:00 UTC\n" in said


def test_a_page_says_what_the_newest_wheel_says(site, chromium):
    chromium.go(f"{site.front.url}{FJORD}")
    said = chromium.text()
    assert 'home page\nhttps://fjord.example/?a="><b>\nlinks\nSource & more git.example\nlicence\nMIT\n' in said
    assert "\nClassifiers\nLicense :: OSI Approved :: BSD License\n" in said
    assert said.index("Sends & receives") < said.index("newest release")


@catches("indexctl/commands/site.py", "url or desk.setting.url", "desk.setting.url")
def test_a_page_says_how_to_install(site, chromium):
    chromium.go(f"{site.front.url}{FJORD}")
    said = chromium.text()
    assert f"python3 -m pip install --index-url {PEOPLE}/simple/ fjord-queue\n" in said
    assert f"uv add --default-index {PEOPLE}/simple/ fjord-queue\n" in said
    chromium.go(f"{site.front.url}/browse/projects/driftwood.html")
    said = chromium.text()
    assert "Install" not in said and "newest release\nno release" in said and "No file has been uploaded yet." in said


def test_a_page_says_what_the_project_needs_and_what_needs_it(site, chromium):
    chromium.go(f"{site.front.url}{FJORD}")
    assert "\nNeeds\nEmber.Cache >=1; python_version < '3.9'\nrequests\n" in chromium.text()
    links = "Array.from(document.querySelectorAll('.columns a'), function (it) { return it.pathname; })"
    assert chromium.value(links) == ["/browse/projects/ember-cache.html"]
    chromium.go(f"{site.front.url}/browse/projects/ember-cache.html")
    assert chromium.value(links) == [FJORD] and "\nNeeded by\nfjord-queue\n" in chromium.text()


def test_programs_get_all_projects_as_json(site):
    found = json.loads(site.front.ask("GET", "/browse/projects.json")[2])
    rows = {it["name"]: it for it in found["projects"]}
    assert found["index"] == PEOPLE and len(rows) == COUNT
    assert rows["fjord-queue"]["licence"] == "MIT" and rows["fjord-queue"]["yanked"] == ["2.1"]
    assert rows["ember-cache"]["needed_by"] == ["fjord-queue"] and rows["glasshouse"]["case"] is True


@catches("indexctl/site/pages.py", 'yield "open case", case_text(found.case)', 'yield "case", "open"')
def test_a_page_has_owners_and_an_open_case(site, chromium):
    chromium.go(f"{site.front.url}/browse/projects/glasshouse.html")
    said = chromium.text()
    assert "owners\nhugo\n" in said and "jonas asks for this name, to continue the project, since 20" in said
    chromium.go(f"{site.front.url}/browse/projects/inkwell.html")
    assert "open case" not in chromium.text()


@catches("indexctl/site/pages.py", "link(file_path(name, file.file), file.file)",
         'link(f"/file/{name}/{file.file}", file.file)')
def test_each_link_to_a_file_gives_its_bytes(site, chromium):
    chromium.go(f"{site.front.url}{FJORD}")
    paths = chromium.value("Array.from(document.querySelectorAll('.files a'), function (it) { return it.pathname; })")
    assert len(paths) == 6 and {site.front.ask("GET", it)[0] for it in paths} == {200}
