"""HTML that strangers wrote, as HTML that only shows text: each tag and each attribute is one of these, all tags are
closed, and nothing is loaded."""
from __future__ import annotations

import html
import re
import unicodedata
from html.parser import HTMLParser
from typing import Dict, Iterator, List, Optional, Sequence, Tuple

from indexctl.site.about import is_address

Attributes = Sequence[Tuple[str, Optional[str]]]
# of the HTML in characters, of elements within each other, and of a text that is taken in at once
MOST_HTML, MOST_DEEP, PIECE = 400_000, 50, 1_000
MORE = '<p class="soft">The rest is left out.</p>'
# headings of a description stand below that of its part of the page
HEADINGS = {f"h{at}": f"h{min(at + 2, 6)}" for at in range(1, 7)}
SAME = ("a abbr b blockquote br caption cite code dd del details div dl dt em hr i kbd li ol p pre s span strong sub "
        "summary sup table tbody td th thead tr ul var").split()
# what the style of the page, or HTML of today, has by another name
TAGS: Dict[str, str] = {**{it: it for it in SAME}, **HEADINGS, "acronym": "abbr", "tt": "code", "section": "div",
                        "aside": "div", "nav": "div", "figure": "div"}
VOID = "br", "hr"
# What parts of lists and tables stand in, and what they end there if its own end was left out. Elsewhere a part is left
# out: a browser would end by it what is around the description (HTML, "The rules for parsing tokens").
PARTS: Dict[str, Tuple[Sequence[str], Sequence[str]]] = {
    "li": (("ul", "ol"), ("li", "p")), **{it: (("dl",), ("dt", "dd", "p")) for it in ("dt", "dd")},
    **{it: (("tr",), ("td", "th", "p")) for it in ("td", "th")},
    "tr": (("table", "thead", "tbody"), ("tr", "td", "th", "p")),
    **{it: (("table",), ("caption", "thead", "tbody", "tr", "td", "th", "p")) for it in ("caption", "thead", "tbody")},
}
# nothing but parts stands in these
OF_PARTS = "table", "thead", "tbody", "tr"
SIDES, NUMBER, ID = ("left", "center", "right"), re.compile("[0-9]{1,6}"), re.compile(r"[\w.-]{1,100}")
# characters that take room or join letters, and turn no line
HARMLESS = frozenset("\n\t\u00a0\u00ad\u200c\u200d")


def readable(text: str) -> str:
    """A text in which characters that can't be seen, or that turn the direction of writing, stand by their numbers."""
    if text.isprintable():
        return text
    return "".join(it if it.isprintable() or it in HARMLESS or unicodedata.category(it) == "Zs" else f"\\u{ord(it):04x}"
                   for it in text.replace("\r\n", "\n").replace("\r", "\n"))


def plain(text: str) -> str:
    """A text as it is, as HTML."""
    shown = html.escape(readable(text[:MOST_HTML // 4]))
    return f'<pre class="plain">{shown}</pre>\n{MORE if len(text) > MOST_HTML // 4 else ""}'


class Safe(HTMLParser):
    """Takes HTML in, and gathers what it makes of it in `made`. Each open element stands in `stack` with the tag that
    it was given, or None if it was left out."""

    def __init__(self) -> None:
        super().__init__(convert_charrefs=True)
        self.made: List[str] = []
        self.stack: List[Tuple[str, Optional[str]]] = []
        self.size = 0

    def put(self, text: str, end: str = "") -> None:
        """Takes this in, as long as there is room for it and for the end that it will have."""
        if not self.is_full:
            self.size += len(text) + len(end)
            self.made.append(text)

    @property
    def is_full(self) -> bool:
        return self.size > MOST_HTML

    def handle_starttag(self, tag: str, attrs: Attributes) -> None:
        given = dict(attrs)
        made = TAGS.get(tag)
        if tag == "img":
            self.handle_data(given.get("alt") or "")
        elif tag == "input":
            self.handle_data("\u2611" if "checked" in given else "\u2610")
        elif made in VOID:
            self.put(f"<{made}>")
        elif not self.is_full:
            more = "".join(attributes(made, given)) if made else ""
            left = self.room_for(made) if made and (made != "a" or "href=" in more) else None
            while left is not None and len(self.stack) > left:
                self.close_last()
            kept = None if left is None else made
            self.stack.append((tag, kept))
            if kept:
                self.put(f"<{kept}{more}>", f"</{kept}>")

    def room_for(self, made: str) -> Optional[int]:
        """How many of the open elements stay open around an element that begins; None if it may not stand here: it
        would be too deep, a link in a link, or a part elsewhere than in its list or table."""
        parents, ended = PARTS.get(made, ((), ()))
        around = [(at, it) for at, (_, it) in enumerate(self.stack, 1) if it]
        while around and around[-1][1] in ended:
            around.pop()
        last, parent = around[-1] if around else (0, "")
        is_here = parent in parents if parents else parent not in OF_PARTS
        if not is_here or len(around) >= MOST_DEEP or made == "a" and "a" in [it for _, it in around]:
            return None
        return last if parents else len(self.stack)

    def handle_startendtag(self, tag: str, attrs: Attributes) -> None:
        # in HTML the slash says nothing
        self.handle_starttag(tag, attrs)

    def handle_endtag(self, tag: str) -> None:
        """Closes the element, and those in it. An end without a beginning is left out."""
        if any(it == tag for it, _ in self.stack):
            while self.close_last() != tag:
                pass

    def close_last(self) -> str:
        tag, made = self.stack.pop()
        if made:
            self.made.append(f"</{made}>")
        return tag

    def handle_data(self, data: str) -> None:
        for at in range(0, len(data), PIECE):
            self.put(html.escape(readable(data[at:at + PIECE])))

    def whole(self) -> str:
        while self.stack:
            self.close_last()
        return "".join(self.made) + (MORE if self.is_full else "")


def attributes(tag: str, given: Dict[str, Optional[str]]) -> Iterator[str]:
    """The attributes that an element keeps. An `id` has a beginning that no part of the page has, so that none stands
    for one of these."""
    found = {key: value or "" for key, value in given.items()}
    if tag == "a" and "href" in found:
        yield from link_to(found["href"].strip())
    if ID.fullmatch(found.get("id", "")):
        yield f' id="text-{found["id"]}"'
    if found.get("align") in SIDES:
        yield f' class="to-{found["align"]}"'
    for key in {"td": ("colspan", "rowspan"), "th": ("colspan", "rowspan"), "ol": ("start",)}.get(tag, ()):
        if NUMBER.fullmatch(found.get(key, "")) and 1 <= int(found[key]) <= (50 if tag[0] == "t" else 999_999):
            yield f' {key}="{int(found[key])}"'


def link_to(url: str) -> Iterator[str]:
    """An address of the web or of mail, or a place in the same text. What is beside the description in its own
    repository is not here."""
    if url.startswith("#") and ID.fullmatch(url[1:]):
        yield f' href="#text-{url[1:]}"'
    elif is_address(url) or re.fullmatch(r"mailto:[\w.+-]+@[\w.-]+", url):
        yield f' href="{html.escape(url)}" rel="noreferrer nofollow"'


def safe(text: str) -> str:
    """This HTML, of which nothing is left but what shows text."""
    parser = Safe()
    parser.feed(text)
    parser.close()
    return parser.whole()
