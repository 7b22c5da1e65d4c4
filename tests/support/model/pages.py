"""The pages that pip reads, and the choice between them (docs/reference/PAGES.md)."""
import json
import re
from typing import NamedTuple, Optional

HTML = "text/html"
HTML_1 = "application/vnd.pypi.simple.v1+html"
JSON_1 = "application/vnd.pypi.simple.v1+json"
TYPES = HTML, HTML_1, JSON_1
META = {"api-version": "1.1"}
LATEST = {HTML_1.replace("v1", "latest"): HTML_1, JSON_1.replace("v1", "latest"): JSON_1}
QUALITY = r"0(\.[0-9]{0,3})?|1(\.0{0,3})?"


def escaped(value):
    for sign, written in (("&", "&amp;"), ("<", "&lt;"), (">", "&gt;"), ('"', "&quot;")):
        value = value.replace(sign, written)
    return value


def html_page(title, lines):
    head = ["<!DOCTYPE html>", "<html>", "<head>", '<meta charset="utf-8">',
            '<meta name="pypi:repository-version" content="1.0">', f"<title>{title}</title>", "</head>", "<body>"]
    return "".join(line + "\n" for line in [*head, *lines, "</body>", "</html>"])


def json_page(page):
    return json.dumps(page, ensure_ascii=False, separators=(",", ":"), sort_keys=True)


class Listed(NamedTuple):
    """A file as a page lists it. `yank` is the reason, or None if its release is not yanked."""
    file: str
    release: str
    digest: str
    size: int
    requires: str = ""
    yank: Optional[str] = None


def page_of_names(names, kind):
    """The page of these names: of each the name and the name as it is shown."""
    if kind == JSON_1:
        return json_page({"meta": META, "projects": [{"name": shown} for _, shown in names]})
    return html_page("Simple index", [f'<a href="/simple/{name}/">{escaped(shown)}</a><br>' for name, shown in names])


def page_of_files(name, files, kind):
    """The page of a project with these files."""
    if kind == JSON_1:
        versions = sorted({it.release for it in files})
        return json_page({"files": [json_file(name, it) for it in files], "meta": META, "name": name,
                          "versions": versions})
    title = f"Links for {name}"
    return html_page(title, [f"<h1>{title}</h1>", *(html_file(name, it) for it in files)])


def root_page(tables, kind):
    """The names that are held, also those without files."""
    return page_of_names([(name, it.shown) for name, it in sorted(tables.held.items())], kind)


def project_page(tables, name, kind):
    """The undeleted files of a held name."""
    yanks = tables.held[name].yanks
    return page_of_files(name, [Listed(spelled, it.release, it.digest, it.size, it.requires, yanks.get(it.release))
                                for spelled, it in tables.undeleted(name).items()], kind)


def html_file(name, listed):
    marks = f' data-requires-python="{escaped(listed.requires)}"' if listed.requires else ""
    if listed.yank is not None:
        marks += f' data-yanked="{escaped(listed.yank)}"'
    return f'<a href="/files/{name}/{listed.file}#sha256={listed.digest}"{marks}>{listed.file}</a><br>'


def json_file(name, listed):
    row = {"filename": listed.file, "hashes": {"sha256": listed.digest}, "size": listed.size,
           "url": f"/files/{name}/{listed.file}"}
    if listed.requires:
        row["requires-python"] = listed.requires
    if listed.yank is not None:
        row["yanked"] = listed.yank or True
    return row


def coverage(media_range):
    """The types that a range covers, and how specific it is."""
    media_range = LATEST.get(media_range, media_range)
    if media_range in TYPES:
        return [media_range], 3
    return {"text/*": ([HTML], 2), "application/*": ([HTML_1, JSON_1], 2), "*/*": (TYPES, 1)}.get(media_range, ([], 0))


def item_of(text):
    """The range and the quality of an item; None if it is not `type/subtype`, or its quality is malformed."""
    media_range, *parameters = [piece.strip(" \t") for piece in text.split(";")]
    quality = next((piece[2:] for piece in parameters if piece[:2] in ("q=", "Q=")), "1")
    if not re.fullmatch("[^/]+/[^/]+", media_range) or not re.fullmatch(QUALITY, quality):
        return None
    return media_range.lower(), float(quality)


def chosen_type(accepts):
    """The type that is served to these values of `Accept`, or None if there is no choice."""
    items = [item for value in accepts for item in map(item_of, value.split(",")) if item] or [("*/*", 1.0)]
    qualities = {}
    for kind in TYPES:
        covering = [(coverage(it)[1], quality) for it, quality in items if kind in coverage(it)[0]]
        qualities[kind] = max(covering, default=(0, 0.0))[1]
    best = max(TYPES, key=qualities.get)
    return best if qualities[best] > 0 else None
