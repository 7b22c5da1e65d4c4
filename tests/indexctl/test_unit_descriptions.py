"""What becomes of a description that anybody may upload: HTML that shows text and loads nothing, or the text as it
is."""
from __future__ import annotations

import os
import random
import sys
import threading

import pytest
from indexctl.ends import Stop
from indexctl.site import descriptions, rendering, safe
from indexctl.site.about import Description
from support.needed import want_module
from support.planted import catches

MARKDOWN, RST = "text/markdown", "text/x-rst"
OTHERS = "script style svg math select template form noscript textarea title body html plaintext frameset".split()
# a sample that shows each of these, or the text of a wheel of long ago
WELL = [
    ("<p>a <b>b</b></p>", "<p>a <b>b</b></p>"), ("<h1>t</h1><h6>u</h6>", "<h3>t</h3><h6>u</h6>"),
    ('<a href="https://a.example/?x&amp;y">a</a>',
     '<a href="https://a.example/?x&amp;y" rel="noreferrer nofollow">a</a>'),
    ('<a href="mailto:ann@a.example">a</a>', '<a href="mailto:ann@a.example" rel="noreferrer nofollow">a</a>'),
    ('<a href="#part">a</a><p id="part">b</p>', '<a href="#text-part">a</a><p id="text-part">b</p>'),
    ('<p align="center">a</p>', '<p class="to-center">a</p>'), ("<br><hr/>", "<br><hr>"),
    ('<ol start="7"><li>a</ol>', '<ol start="7"><li>a</li></ol>'),
    ('<table><tr><td colspan="2" rowspan="3">a</table>', '<table><tr><td colspan="2" rowspan="3">a</td></tr></table>'),
    ("<ul><li>a<li><p>b<li>c</ul>", "<ul><li>a</li><li><p>b</p></li><li>c</li></ul>"),
    ("<dl><dt>a<dd>b<dt>c</dl>d", "<dl><dt>a</dt><dd>b</dd><dt>c</dt></dl>d"),
    ("<table><caption>a<thead><tr><th>b<tbody><tr><td>c<td>d<tr><td>e</table>",
     "<table><caption>a</caption><thead><tr><th>b</th></tr></thead>"
     "<tbody><tr><td>c</td><td>d</td></tr><tr><td>e</td></tr></tbody></table>"),
    ('<input type="checkbox" checked> a <input type="checkbox"> b', "\u2611 a \u2610 b"),
    ('<section><tt>a</tt></section>', "<div><code>a</code></div>")]
NOTHING_RUNS = [
    ("<script>alert(1)</script>", "alert(1)"), ("<style>p{}</style>", "p{}"), ("<iframe src=/x>", ""),
    ('<p onclick="x()" style="position:fixed" class="box">a</p>', "<p>a</p>"), ("<svg/onload=x()>", ""),
    ('<a href="javascript:x()">a</a>', "a"), ('<a href=" java\nscript:x()">a</a>', "a"),
    ('<a href="data:text/html,x">a</a>', "a"), ('<a href="docs/a.md">a</a>', "a"), ('<a href="//b.example">a</a>', "a"),
    ('<a href="/requests">a</a>', "a"), ('<a href="mailto:a@b?body=x">a</a>', "a"),
    ('<img src="https://b.example/x.png" alt="built <b>">', "built &lt;b&gt;"),
    ('<img src="data:image/png;base64,x">', ""),
    ('<p id="find">a</p>', '<p id="text-find">a</p>'), ('<p id="a b">a</p>', "<p>a</p>"),
    ('<table><tr><td colspan="99999">a</table>', "<table><tr><td>a</td></tr></table>"),
    ("<form><button>a</button></form>", "a"),
    ("<!-- a --><?a?><!DOCTYPE a>", ""),
    ("</div></main>a", "a"), ("<div><p>a</div>b</p>", "<div><p>a</p></div>b"), ("<b>a", "<b>a</b>"),
    ('<a href="https://a.example"><a href="https://b.example">b</a></a>',
     '<a href="https://a.example" rel="noreferrer nofollow">b</a>'),
    ("&lt;script&gt;&amp;", "&lt;script&gt;&amp;"), ("a\u202eb\x07\x00c\u200dd", "a\\u202eb\\u0007\\u0000c\u200dd")]


@catches("indexctl/site/safe.py", "made = TAGS.get(tag)", "made = TAGS.get(tag, tag)",
         also=["test_no_description_leaves_its_part_of_the_page"])
@catches("indexctl/site/safe.py", """yield f' id="text-{found["id"]}"'""", """yield f' id="{found["id"]}"'""",
         also=["test_no_description_leaves_its_part_of_the_page",
               "indexctl/test_site_said.py::test_a_description_is_rendered_and_does_nothing"])
@catches("indexctl/site/safe.py", "elif is_address(url) or re.fullmatch", "elif url or re.fullmatch")
@catches("indexctl/site/safe.py", "while self.stack:", "while False:",
         also=["test_a_long_description_is_cut_and_its_elements_are_closed"])
@pytest.mark.parametrize("text, made", WELL + NOTHING_RUNS)
def test_of_html_what_shows_text_is_left(text, made):
    assert safe.safe(text) == made


@catches("indexctl/site/safe.py", "return self.size > MOST_HTML", "return self.size < 0")
def test_a_long_description_is_cut_and_its_elements_are_closed():
    made = safe.safe("<ul><li>" + "word & " * 100_000)
    assert made.endswith(f"</li></ul>{safe.MORE}")
    for it in (made, safe.safe("<b></b>" * 200_000)):
        assert safe.MOST_HTML - 10_000 < len(it) < safe.MOST_HTML + 10_000


@catches("indexctl/site/safe.py", "len(around) >= MOST_DEEP", "len(around) < 0")
def test_elements_are_no_deeper_than_a_browser_likes():
    made = safe.safe("<div>" * 5_000 + "a" + "</div>" * 5_000 + "<p>b</p>")
    assert made == "<div>" * 50 + "a" + "</div>" * 50 + "<p>b</p>"


@catches("indexctl/site/safe.py", "shown = html.escape(readable(text[:MOST_HTML // 4]))",
         "shown = readable(text[:MOST_HTML // 4])")
def test_a_text_as_it_is_has_no_markup_and_an_end():
    assert safe.plain("<b>\r\n\u202e") == '<pre class="plain">&lt;b&gt;\n\\u202e</pre>\n'
    made = safe.plain("&" * 200_000)
    assert made.endswith(safe.MORE) and len(made) <= 5 * safe.MOST_HTML // 4 + 100


def want_it_in_its_part(text):
    """By a parser as browsers have it: all that is made of a text is within the element that is meant for it."""
    html5lib = want_module("html5lib", "python3-html5lib")
    page = html5lib.parse(f'<main><div class="it">{safe.safe(text)}</div><p id="behind">behind</p></main>',
                          namespaceHTMLElements=False)
    main = page.find("body/main")
    assert [it.get("class") or it.get("id") for it in main] == ["it", "behind"], text
    assert main[1].text == "behind" and {it.tag for it in main[0].iter()} <= {*safe.TAGS.values(), *safe.VOID}
    assert all(it.get("id", "text-").startswith("text-") for it in main[0].iter()), text


@catches("indexctl/site/safe.py", "parent in parents if parents else parent", "True if parents else parent")
@catches("indexctl/site/safe.py", "if parents else parent not in OF_PARTS", "if parents else True")
@pytest.mark.parametrize("text", [
    "<li><div><li>a</div>b", "<dt><div><dd>a</div>b", "<dd><p><div><dt>a</div>b", "<ul><li><div><p><li>a</div>b</ul>",
    "<table><div><table>a", "<p><table><p><div><table>a", "<table><tr><td><div><tr>a</div>b", "<tr><div><td>a</div>b"])
def test_a_part_of_a_list_or_table_ends_nothing_around_it(text):
    want_it_in_its_part(f"{text}</table><b>c")


@pytest.mark.parametrize("round_", range(40))
def test_no_description_leaves_its_part_of_the_page(round_, chance):
    """Of random pieces."""
    pieces = [f"<{end}{tag}{more}>" for tag in (*safe.SAME, *OTHERS) for end in ("", "/")
              for more in ("", ' href="https://a.example" id="find"')]
    draw = random.Random(f"{chance.random()} {round_}")
    want_it_in_its_part("".join(draw.choice(pieces) + draw.choice(["", "a", "&lt;", "<!--", "-->", "]]>", '"'])
                                for _ in range(60)))


@pytest.fixture(scope="module")
def renderer():
    want_module("readme_renderer", "python3-readme-renderer")
    with descriptions.Renderer() as made:
        assert "readme_renderer" in made.by
        yield made


@catches("indexctl/site/rendering.py", '"text/markdown": "markdown", "text/x-rst": "rst"',
         '"text/markdown": "rst", "text/x-rst": "markdown"',
         also=["indexctl/test_site_said.py::test_a_description_is_rendered_and_does_nothing"])
@pytest.mark.parametrize("kind, text, made", [
    (MARKDOWN, "# Title\n\n*a* [b](https://b.example)\n", "<h3>Title</h3>\n<p><em>a</em> "
     '<a href="https://b.example" rel="noreferrer nofollow">b</a></p>\n'),
    (MARKDOWN, "|a|\n|-|\n|1|\n", "<table>\n<thead>\n<tr>\n<th>a</th>\n</tr>\n</thead>\n"
     "<tbody>\n<tr>\n<td>1</td>\n</tr>\n</tbody>\n</table>\n"),
    (MARKDOWN, "![built](https://b.example/x.png)", "<p>built</p>\n"),
    (MARKDOWN, "[a](javascript:x()) <img src=data:image/png;base64,x onerror=x()>", "<p>a </p>\n"),
    (RST, "*a* `b <https://b.example>`_\n", '<p><em>a</em> '
     '<a href="https://b.example" rel="noreferrer nofollow">b</a></p>\n')])
def test_a_description_is_rendered_as_its_kind_says(renderer, kind, text, made):
    assert renderer.html_of(Description(text, kind)) == made


@catches("indexctl/site/rendering.py", "found[kind](text) if kind in found else None",
         "(found.get(kind) or found['text/markdown'])(text)")
@pytest.mark.parametrize("kind, text", [
    ("text/plain", "a"), ("text/html", "<b>a</b>"), (RST, ".. include:: /etc/passwd\n"),
    (RST, ".. csv-table::\n   :file: /etc/passwd\n"), (RST, ".. raw:: html\n\n   <b>\n"), (RST, "`a\n")])
def test_what_no_renderer_takes_is_shown_as_it_is(renderer, kind, text):
    assert renderer.html_of(Description(text, kind)) is None


# nested without an end, and replaced by itself 4 ** 30 times
WIDE = "".join(f".. |a{at}| replace:: {f'|a{at + 1}| ' * 4}\n" for at in range(30)) + ".. |a30| replace:: x\n\n|a0|\n"


@catches("indexctl/site/descriptions.py", "if not self.process and not self.begin():", "if not self.process:")
@pytest.mark.slow
@pytest.mark.parametrize("kind, text", [(MARKDOWN, "<b>" * 30_000), (RST, WIDE)], ids=["deep", "wide"])
def test_a_description_that_takes_too_long_ends_its_process_and_the_next_is_rendered(renderer, kind, text):
    assert renderer.html_of(Description(text, kind)) is None
    assert renderer.html_of(Description("a", MARKDOWN)) == "<p>a</p>\n"


@catches("indexctl/site/rendering.py", "resource.setrlimit(resource.RLIMIT_AS, (MOST_MEMORY, MOST_MEMORY))", "pass")
def test_the_process_has_bounds_of_memory_and_files(renderer):
    renderer.html_of(Description("a", MARKDOWN))
    with open(f"/proc/{renderer.process.pid}/limits", encoding="ascii") as kept:
        found = {line[:26].strip(): line[26:].split()[:2] for line in kept}
    assert found["Max address space"] == [str(rendering.MOST_MEMORY)] * 2 and rendering.MOST_MEMORY <= 1 << 29
    assert found["Max file size"] == found["Max core file size"] == ["0"] * 2


@catches("indexctl/site/rendering.py", "# MemoryError and RecursionError are among what a description can bring about",
         "raise")
def test_a_description_that_takes_all_memory_is_shown_as_it_is(monkeypatch):
    def takes_all(_text):
        raise MemoryError
    assert rendering.rendered({MARKDOWN: takes_all}, MARKDOWN, "a") is None
    assert rendering.rendered({MARKDOWN: lambda _: "a" * (4 * safe.MOST_HTML + 1)}, MARKDOWN, "a") is None


@catches("indexctl/site/rendering.py", "signal.setitimer(signal.ITIMER_PROF, MOST_SECONDS)", "pass")
def test_the_process_answers_each_line(monkeypatch):
    monkeypatch.setattr(rendering, "renders", lambda: {MARKDOWN: lambda text: f"<p>{text}</p><script>"})
    bounds, answers = [], []
    monkeypatch.setattr(rendering, "bound", lambda: bounds.append(1))
    monkeypatch.setattr(rendering.signal, "setitimer", lambda which, seconds: bounds.append(seconds))
    asked = [b'{"kind": "text/markdown", "text": "a"}', b'{"kind": "text/plain", "text": "a"}']
    rendering.serve(iter(asked), answers.append)
    assert answers[1:] == ["<p>a</p>", None]
    assert bounds == [1, rendering.MOST_SECONDS, 0, rendering.MOST_SECONDS, 0]


class FakeRenderer:
    """Renders each text as `<p>`, unless it is `hostile`, as long as it has time."""
    by, has_time = "stand-in 1", True

    def html_of(self, found):
        return None if found.text == "hostile" else f"<p>{found.text}</p>"


@catches("indexctl/site/descriptions.py", "described == self.by and os.path", "os.path",
         also=["indexctl/test_unit_site.py::test_a_wheel_whose_description_is_to_be_made_again_is_read_again"])
def test_a_description_is_made_once_by_each_renderer(tmp_path):
    renderer = FakeRenderer()
    made = descriptions.Descriptions(str(tmp_path), renderer)
    by = made.put("a", Description("text", MARKDOWN))
    assert "stand-in 1" in by and made.has("a", by) and made.html("a", by) == "<p>text</p>"
    assert not made.has("b", by) and made.has("b", "") and made.html("b", "") == made.html("b", by) == ""
    renderer.by = "stand-in 2"
    assert not descriptions.Descriptions(str(tmp_path), renderer).has("a", by)


@catches("indexctl/site/descriptions.py", "made or plain(found.text)", "made or found.text",
         also=["test_without_a_renderer_each_description_is_shown_as_it_is",
               "test_a_run_that_has_no_time_left_leaves_the_rest_to_the_next"])
def test_what_is_hostile_is_shown_as_it_is_and_not_tried_again(tmp_path):
    made = descriptions.Descriptions(str(tmp_path), FakeRenderer())
    by = made.put("a", Description("hostile", MARKDOWN))
    assert made.has("a", by) and made.html("a", by) == safe.plain("hostile")


def test_without_a_renderer_each_description_is_shown_as_it_is(tmp_path, monkeypatch):
    monkeypatch.setattr(descriptions.sys, "executable", "/nonexistent")
    with descriptions.Renderer() as renderer:
        assert renderer.by == ""
        made = descriptions.Descriptions(str(tmp_path), renderer)
        by = made.put("a", Description("<b>\n", MARKDOWN))
    assert made.has("a", by) and made.html("a", by) == '<pre class="plain">&lt;b&gt;\n</pre>\n'


@catches("indexctl/site/descriptions.py", 'LATER = "later"', 'LATER = ""')
def test_a_run_that_has_no_time_left_leaves_the_rest_to_the_next(tmp_path):
    renderer = FakeRenderer()
    renderer.has_time = False
    made = descriptions.Descriptions(str(tmp_path), renderer)
    by = made.put("a", Description("text", MARKDOWN))
    assert not made.has("a", by) and made.html("a", by) == safe.plain("text")


@catches("indexctl/site/descriptions.py", "self.spent += time.monotonic() - began", "self.spent += 0")
def test_what_a_run_spends_on_descriptions_is_counted():
    with descriptions.Renderer() as renderer:
        assert renderer.has_time
        renderer.by = renderer.by and "x"
        renderer.html_of(Description("a", MARKDOWN))
        assert 0 < renderer.spent < descriptions.MOST_SECONDS
        renderer.spent = descriptions.MOST_SECONDS
        assert not renderer.has_time


class Timer:
    """Stands for one of `threading`, and never ends."""
    made: list[Timer] = []

    def __init__(self, *_):
        self.is_over = False
        self.made.append(self)

    def start(self):
        """Nothing is ended here."""

    def cancel(self):
        self.is_over = True


def test_a_process_that_has_answered_is_not_ended_by_its_clock(monkeypatch):
    monkeypatch.setattr(descriptions.threading, "Timer", Timer)
    with descriptions.Renderer() as renderer:
        renderer.html_of(Description("a", MARKDOWN))
    assert Timer.made and all(it.is_over for it in Timer.made)


@catches("indexctl/site/descriptions.py", "more = MORE if made", "more = '' if made")
def test_a_description_that_is_too_long_says_so(tmp_path):
    made = descriptions.Descriptions(str(tmp_path), FakeRenderer())
    by = made.put("a", Description("a" * (descriptions.MOST_TEXT + 1), MARKDOWN))
    assert made.html("a", by).endswith(safe.MORE)


@catches("indexctl/site/descriptions.py", "set(os.listdir(self.folder)).difference(",
         "set(os.listdir(self.folder)).intersection(")
def test_descriptions_that_no_page_has_go(tmp_path):
    made = descriptions.Descriptions(str(tmp_path), FakeRenderer())
    for digest in ("a", "b"):
        made.put(digest, Description("text", MARKDOWN))
    made.remove_others({"a", "c"})
    assert os.listdir(made.folder) == ["a.html"]


@catches("indexctl/site/descriptions.py", "if os.path.islink(self.folder):", "if os.path.islink(folder):")
def test_a_link_in_the_place_of_the_descriptions_removes_no_others(tmp_path):
    (tmp_path / "mine").mkdir()
    (tmp_path / ".descriptions").symlink_to(tmp_path / "mine")
    with pytest.raises(Stop, match="is a link"):
        descriptions.Descriptions(str(tmp_path), FakeRenderer())


@catches("indexctl/site/descriptions.py", "with self.lock:", "with threading.Lock():")
def test_threads_take_their_turns(renderer):
    """Several read files at once, and each gets the answer to its own."""
    found = {}

    def work(at):
        found[at] = [renderer.html_of(Description(f"{at}", MARKDOWN)) for _ in range(5)]
    threads = [threading.Thread(target=work, args=(at,)) for at in range(8)]
    for it in threads:
        it.start()
    for it in threads:
        it.join()
    assert found == {at: [f"<p>{at}</p>\n"] * 5 for at in range(8)}


@catches("indexctl/site/descriptions.py", 'cwd=os.sep, env={"LC_ALL": "C.UTF-8"}', "cwd=None, env=None")
def test_the_process_sees_nothing_of_this_one():
    """Neither its folder, of which docutils would read a file of settings, nor its environment."""
    with descriptions.Renderer() as renderer:
        pid = renderer.process.pid
        assert os.readlink(f"/proc/{pid}/cwd") == "/"
        with open(f"/proc/{pid}/environ", "rb") as kept:
            assert kept.read() == b"LC_ALL=C.UTF-8\0"
    assert renderer.process is None and sys.executable
