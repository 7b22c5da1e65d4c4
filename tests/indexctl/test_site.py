"""The pages for everybody, as nginx serves them and as a browser, a telephone, paper and a screen reader have them."""
from __future__ import annotations

import os
import re
import signal
import subprocess
from typing import Any

import pytest
from support.indexctl.browser import BROKEN_WORDS, CONTRASTS, WIDTHS, Page
from support.indexctl.control import assert_ends, put
from support.indexctl.projects import LONGEST_USER
from support.indexctl.sample import NAMES
from support.indexctl.site import COUNT, FJORD, PEOPLE, read, texts_of
from support.needed import want_module
from support.places import NGINX, SERVER
from support.planted import catches
from support.serving import Index

pytestmark = pytest.mark.xdist_group("site")
OWN = "404.html", "feed.xml", "icon.svg", "index.html", "projects.json", "site.js", "style.css"


def shown(page: Page) -> Any:
    """The names of the projects that the list shows."""
    return page.value("Array.from(document.querySelectorAll('.projects > li:not([hidden]) a'),"
                      "function (it) { return it.textContent; })")


@catches("indexctl/site/about.py", "except Exception:", "except StopIteration:",
         also=["indexctl/test_unit_about.py::test_a_wheel_that_can_t_be_read_says_nothing"])
def test_a_page_is_written_for_each_project_without_a_token(site):
    assert_ends(site.ended, 0, f"{COUNT} projects, {COUNT + len(OWN)} pages changed")
    names = [re.sub(r"[-_.]+", "-", it).lower() for it in (*NAMES, "fjord-queue", "early")]
    assert sorted(site.texts) == sorted([".changes.json", ".wheels.json", *OWN,
                                         *(f"projects/{it}.html" for it in names)])


@catches("indexctl/site/folder.py", "if before.read() == text:", 'if before.read() == text + "x":',
         also=["indexctl/test_unit_site_folder.py::test_a_page_is_written_if_it_changed"])
def test_a_second_run_writes_nothing(site):
    before = os.stat(f"{site.folder}/index.html").st_mtime_ns
    ended = site.by.run("site", site.folder, "--url", PEOPLE, "--log", site.log)
    assert_ends(ended, 0, f"{COUNT} projects, 0 pages changed")
    assert os.stat(f"{site.folder}/index.html").st_mtime_ns == before


@catches("indexctl/site/folder.py", "if os.listdir(folder) and not os.path.exists(path):",
         "if not os.path.isdir(folder):",
         also=["indexctl/test_unit_site_folder.py::test_a_folder_of_something_else_is_refused"])
def test_a_folder_of_something_else_is_left_alone(site, folder):
    put(f"{folder}/home/projects/mine.html", "mine")
    assert_ends(site.by.run("site", f"{folder}/home"), 2, "has files of something else")
    assert texts_of(f"{folder}/home") == {"projects/mine.html": "mine"}
    assert_ends(site.by.run("site", f"{folder}/none"), 2, "is not a folder")


@catches("indexctl/commands/site.py", 'parts_of_url(args.url, "--url")', "str(args.url)")
@pytest.mark.parametrize("url", ["packages.example", "http://packages.example", "https://packages.example/simple"])
def test_an_address_that_people_can_t_use_is_refused(site, url):
    assert_ends(site.by.run("site", site.folder, "--url", url), 2, "--url")


@catches("indexctl/commands/site.py", "descriptions.remove_others(used)", "pass")
@catches("indexctl/site/folder.py", "return sum(changed) + remove_others(inner, own)", "return sum(changed)")
@catches("indexctl/site/folder.py", "put_whole(path, [text], is_synced=False)", 'open(path, "a").write(text)',
         also=["test_a_run_that_is_killed_leaves_whole_pages",
               "indexctl/test_unit_site_folder.py::test_a_page_is_written_if_it_changed"])
def test_a_page_that_is_gone_goes_and_one_that_changed_is_written(site, folder):
    made = f"{folder}/own"
    os.mkdir(made)
    site.index.claim("passing")
    assert_ends(site.by.run("site", made), 0, f"{COUNT + 1} projects")
    assert "projects/passing.html" in texts_of(made)
    put(f"{made}/projects/moss.html", "spoilt")
    put(f"{made}/projects/passing.html.part", "left by a run that was killed")
    put(f"{made}/.descriptions/{'0' * 64}.html", "of a wheel that is deleted")
    site.index.request(do="relinquish", name="passing")
    ended = site.by.run("site", made)
    # both lists, the page of moss, and the two that went
    assert_ends(ended, 0, f"{COUNT} projects, 5 pages changed")
    texts = texts_of(made)
    assert not [it for it in texts if "passing" in it or it.endswith(".part")] and "spoilt" not in str(texts)
    assert f"{'0' * 64}.html" not in os.listdir(f"{made}/.descriptions")


def test_a_run_that_is_killed_leaves_whole_pages(site, folder, looked):
    """Each page is at any moment as it was or as it becomes."""
    made = f"{folder}/killed"
    os.mkdir(made)
    assert_ends(site.by.run("site", made, "--url", "https://old.example"), 0)
    old = texts_of(made)
    with site.by.start("site", made, "--url", PEOPLE, streams={"stdout": subprocess.DEVNULL}) as process:
        while process.poll() is None and "https://old.example" in read(f"{made}/projects/aurora-client.html"):
            pass
        process.send_signal(signal.SIGKILL)
    found = {path: it for path, it in texts_of(made).items() if path.endswith(".html")}
    new = {path: it.replace("old.example", "packages.example") for path, it in old.items()}
    for path, it in found.items():
        looked(it in (old[path], new[path]), path)
    looked(set(found) == {it for it in old if it.endswith(".html")}, sorted(found))
    assert_ends(site.by.run("site", made, "--url", PEOPLE), 0)
    assert {path: it for path, it in texts_of(made).items() if path != ".wheels.json"} == {
        path: it for path, it in new.items() if path != ".wheels.json"}


def test_the_address_of_the_index_leads_to_the_list(site):
    status, headers, _ = site.front.ask("GET", "/")
    assert (status, headers["Location"]) == (302, f"{site.front.url}/browse/")
    assert site.front.ask("GET", "/browse")[0] == 301
    assert site.front.ask("POST", "/", "x")[0] == 405


def test_without_the_pages_it_leads_to_the_index(program, open_folder, certificate):
    from support.server.front import Front
    with Index(program) as index, Front(f"{open_folder}/bare-front", certificate, index.port) as front:
        assert front.ask("GET", "/")[1]["Location"] == f"{front.url}/simple/"


@pytest.mark.parametrize("path, kind", [("", "text/html"), ("style.css", "text/css"), ("site.js", "text/javascript"),
                                        ("icon.svg", "image/svg+xml"), ("projects.json", "application/json"),
                                        ("feed.xml", "application/atom+xml"),
                                        ("projects/early.html", "text/html")])
def test_pages_have_a_type_a_charset_and_a_policy(site, path, kind):
    status, headers, _ = site.front.ask("GET", f"/browse/{path}")
    assert (status, headers["Content-Type"].partition("; charset=utf-8")[0]) == (200, kind)
    policy = dict(it.split(" ", 1) for it in headers["Content-Security-Policy"].split("; "))
    assert policy["default-src"] == "'none'" and set(policy.values()) == {"'none'", "'self'"}
    assert headers["X-Content-Type-Options"] == "nosniff" and headers["Cache-Control"] == "no-cache"


def test_what_wheels_said_is_not_served(site):
    description, *_ = os.listdir(f"{site.folder}/.descriptions")
    for path in (".wheels.json", ".changes.json", ".descriptions/", f".descriptions/{description}"):
        assert site.front.ask("GET", f"/browse/{path}")[0] == 404


def test_the_html_has_no_error_of_a_parser(site):
    html5lib = want_module("html5lib", "python3-html5lib")
    for path, it in site.texts.items():
        if path.endswith(".html"):
            html5lib.HTMLParser(strict=True).parse(it)


def test_a_browser_asks_for_the_pages_alone_and_has_no_complaint(site, chromium):
    chromium.look()
    # it asks for the icon once, and when it likes
    for path in ("/browse/", FJORD):
        chromium.go(f"{site.front.url}{path}")
        assert chromium.console == []
        assert {*chromium.asked, f"{site.front.url}/browse/icon.svg"} == {
            f"{site.front.url}{it}" for it in (path, "/browse/style.css", "/browse/site.js", "/browse/icon.svg")}


def test_a_search_leaves_what_has_the_words(site, chromium):
    chromium.look()
    chromium.go(f"{site.front.url}/browse/")
    assert len(shown(chromium)) == COUNT
    chromium.value("document.getElementById('find').focus()")
    chromium.type("FJORD receives")
    assert shown(chromium) == ["Fjord.Queue"]
    assert ("status", f"1 of {COUNT} projects") in roles(chromium)
    chromium.value("document.getElementById('find').select()")
    chromium.type("no such text")
    assert shown(chromium) == []


def test_a_search_can_be_sent(site, chromium):
    chromium.look()
    chromium.go("about:blank")
    chromium.go(f"{site.front.url}/browse/#q=fjord+%C3%BC")
    assert chromium.value("document.getElementById('find').value") == "fjord \u00fc" and shown(chromium) == []
    assert "No project has these words." in chromium.text()
    chromium.value("location.hash = '#q=fjord'")
    assert chromium.until("document.querySelectorAll('.projects > li:not([hidden])').length === 1")
    assert "No project" not in chromium.text()
    chromium.value("document.getElementById('find').select()")
    chromium.type("ember cache & 100%")
    assert chromium.until("location.hash === '#q=ember+cache+%26+100%25'")
    for address in ("#q=%", "#q", "#x"):
        chromium.go("about:blank")
        chromium.go(f"{site.front.url}/browse/{address}")
        assert chromium.console == []


def test_a_stroke_leads_to_the_search(site, chromium):
    chromium.look()
    chromium.go("about:blank")
    chromium.go(f"{site.front.url}/browse/")
    key = "document.dispatchEvent(new KeyboardEvent('keydown', {key: '/', ctrlKey: %s, cancelable: true}))"
    assert chromium.value(key % "true") and chromium.value("document.activeElement.id") == ""
    assert not chromium.value(key % "false") and chromium.value("document.activeElement.id") == "find"


def test_a_command_is_copied(site, chromium):
    chromium.look()
    chromium.go(f"{site.front.url}{FJORD}")
    said = f"uv add --default-index {PEOPLE}/simple/ fjord-queue"
    assert ("button", f"Copy: {said}") in chromium.spoken()
    chromium.value("navigator.clipboard.writeText = function (it) { window.it = it; return Promise.resolve(); }")
    chromium.value("document.querySelectorAll('.copied button')[1].click()")
    assert chromium.value("window.it") == said
    assert chromium.until("document.querySelectorAll('.copied button')[1].textContent === 'Copied'")


def test_an_address_without_a_page_says_so(site, chromium):
    for path in ("projects/none.html", "projects/", ".wheels.json"):
        status, headers, body = site.front.ask("GET", f"/browse/{path}")
        assert (status, headers["Content-Type"]) == (404, "text/html; charset=utf-8")
        assert b"There is no such page" in body and "default-src 'none'" in headers["Content-Security-Policy"]
    assert site.front.ask("POST", "/browse/projects/early.html", "x")[0] == 405
    chromium.go(f"{site.front.url}/browse/a/b/c.html")
    assert chromium.value("document.links[0].pathname") == "/browse/"
    assert "rgb" in chromium.value("getComputedStyle(document.querySelector('main')).color")
    assert {it.rpartition("/")[2] for it in chromium.asked} <= {"c.html", "style.css", "icon.svg"}
    # as before the first run
    before = read(f"{site.folder}/404.html")
    os.remove(f"{site.folder}/404.html")
    try:
        assert site.front.ask("GET", "/browse/none.html")[0] == 404
    finally:
        put(f"{site.folder}/404.html", before, 0o644)


def roles(page: Page):
    """The roles and names that a screen reader gets; a live region by its text."""
    found = page.spoken()
    said = page.value("document.getElementById('count') && document.getElementById('count').textContent")
    return [(role, name or said) if role == "status" else (role, name) for role, name in found]


@catches("indexctl/site/pages.py", '''return (f'<section aria-labelledby="release-{version}"><h3''',
         "return (f'<section><h3")
def test_a_screen_reader_gets_headings_landmarks_and_a_named_search(site, chromium):
    chromium.look()
    chromium.go(f"{site.front.url}/browse/")
    found = roles(chromium)
    for it in (("heading", "Packages of packages.example"), ("searchbox", "Search names, owners and summaries"),
               ("status", f"{COUNT} projects"), ("link", "Fjord.Queue"), ("main", "")):
        assert it in found
    assert sum(role == "listitem" for role, _ in found) == COUNT
    chromium.go(f"{site.front.url}{FJORD}")
    found = chromium.spoken()
    for it in (("navigation", "All packages"), ("heading", "Fjord.Queue"), ("heading", "Install"), ("region", "2.0"),
               ("heading", "Releases"), ("term", "owners"), ("link", "fjord_queue-2.0.tar.gz")):
        assert it in found


def test_a_keyboard_is_enough(site, chromium):
    chromium.look()
    chromium.go(f"{site.front.url}/browse/")
    chromium.press("Tab")
    assert chromium.value("document.activeElement.id") == "find"
    assert chromium.value("getComputedStyle(document.activeElement).outlineStyle") == "solid"
    chromium.press("Tab")
    assert chromium.value("document.activeElement.textContent") == "Aurora-Client"
    assert chromium.value("getComputedStyle(document.activeElement).outlineStyle") == "solid"


@pytest.mark.parametrize("path", ["/browse/", FJORD], ids=["list", "project"])
@pytest.mark.parametrize("scheme", ["light", "dark"])
def test_texts_have_a_contrast_of_four_and_a_half(site, chromium, path, scheme):
    chromium.look(scheme=scheme)
    chromium.go(f"{site.front.url}{path}")
    found = chromium.value(CONTRASTS)
    assert found["seen"] > 30 and found["found"] == []
    colours = chromium.value("getComputedStyle(document.body).backgroundColor").strip("rgb()").split(", ")
    assert (int(colours[0]) < 50) == (scheme == "dark")


@pytest.mark.parametrize("path", ["/browse/", FJORD], ids=["list", "project"])
def test_a_telephone_need_not_scroll_sideways(site, chromium, path):
    chromium.look(wide=390, is_telephone=True)
    chromium.go(f"{site.front.url}{path}")
    assert chromium.value("document.documentElement.scrollWidth") == 390


@pytest.mark.parametrize("path", ["/browse/", FJORD, "/browse/projects/early.html"], ids=["list", "project", "owners"])
@pytest.mark.parametrize("look, most", WIDTHS)
def test_no_word_is_broken(site, chromium, path, look, most):
    chromium.look(**look)
    chromium.go(f"{site.front.url}{path}")
    found = chromium.value(BROKEN_WORDS % most)
    assert found["seen"] > 30 and found["found"] == []
    assert (LONGEST_USER in chromium.text()) == (path != FJORD)


def test_a_mark_is_one_line_beside_a_name_of_any_length(site, chromium):
    script = """(function (mark) {
      var name = mark.parentElement.querySelector("a");
      return Array.from({length: 128}, function (_, at) {
        name.textContent = "w".repeat(at + 1);
        return mark.getClientRects().length === 1 && mark.offsetHeight < 32;
      });
    })(document.querySelector(".projects .tag"))"""
    for wide in (1280, 900):
        chromium.look(wide=wide)
        chromium.go(f"{site.front.url}/browse/")
        assert chromium.value(script) == [True] * 128


def test_paper_has_all_and_no_search(site, chromium):
    chromium.look(wide=800, media="print")
    chromium.go(f"{site.front.url}/browse/")
    assert chromium.value("getComputedStyle(document.getElementById('find')).display") == "none"
    assert "Fjord.Queue" in chromium.text()


def test_without_a_script_all_is_there_but_the_search(site, chromium):
    chromium.look()
    chromium.call("Emulation.setScriptExecutionDisabled", value=True)
    try:
        chromium.go(f"{site.front.url}/browse/")
        spoken = chromium.spoken()
    finally:
        chromium.call("Emulation.setScriptExecutionDisabled", value=False)
    assert sum(role == "listitem" for role, _ in spoken) == COUNT
    assert "searchbox" not in {role for role, _ in spoken}


def test_the_unit_writes_where_nginx_reads():
    words = "indexctl site --url ${SITE_URL} --log /var/log/package-index/changes.log /var/lib/index-site\n"
    assert words in read(f"{SERVER}/systemd/index-site.service")
    assert "access_log /var/log/package-index/changes.log index_changes" in read(f"{NGINX}/packages.conf")
