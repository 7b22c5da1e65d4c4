"""What the newest release says of itself, from METADATA of its wheel or PKG-INFO of its source archive. Its uploader
chose all of it, so each part is bounded."""
from __future__ import annotations

import dataclasses
import email.message
import email.parser
import io
import re
import tarfile
import urllib.parse
import zipfile
from dataclasses import dataclass
from typing import IO, Any, Dict, Iterator, NamedTuple, Optional, Tuple, cast

from indexctl.archives import METADATA, PKG_INFO, STEADY, Unpacked
from package_index.names import is_name

# of METADATA in bytes, of a line that is taken from it in characters, of such lines, and of the label of a link
MOST_METADATA, MOST_TEXT, MOST_LINES, MOST_LABEL = 1 << 20, 300, 100, 32
# of a source archive, the files and the bytes that are passed over on the way to PKG-INFO
MOST_PASSED, MOST_UNPACKED = 20_000, 64 << 20
HOMES, CLASSIFIER = ("home", "homepage"), "License ::"
# a requirement: the name of a project, and the rest (PEP 508)
NEED = re.compile(r"([A-Za-z0-9](?:[A-Za-z0-9._-]*[A-Za-z0-9])?)(?![A-Za-z0-9._-])\s*(.*)", re.DOTALL)
# how a description that stands in a header begins its lines
INDENTED = re.compile(r"\n(?: {8}| {7}\|)")


@dataclass(frozen=True)
class About:
    """The texts may be empty. `home` and the addresses of `links` are of http or https, so that a link to them runs
    nothing. `described` says by what the description was made into HTML; it is empty if there is no description."""
    summary: str = ""
    home: str = ""
    licence: str = ""
    links: Tuple[Tuple[str, str], ...] = ()
    classifiers: Tuple[str, ...] = ()
    needs: Tuple[str, ...] = ()
    described: str = ""


class Description(NamedTuple):
    """A description as it was uploaded, and what it says it is, such as `text/markdown`."""
    text: str
    kind: str


NOTHING, NO_TEXT = About(), Description("", "")


def read_about(file: str, data: bytes) -> Tuple[About, Description]:
    """What a file of this name says, and its description. One that can't be read says nothing."""
    try:
        text = (text_of_wheel if file.endswith(".whl") else text_of_source)(io.BytesIO(data))
    except Exception:
        # what a damaged archive raises depends on how it is compressed, and the pages of all projects are written by
        # the same run
        return NOTHING, NO_TEXT
    headers = email.parser.HeaderParser().parsestr(text.decode("utf-8", "replace"))
    return about_of(headers), description_of(headers)


def text_of_wheel(data: IO[bytes]) -> bytes:
    with zipfile.ZipFile(data) as archive:
        entry = next(it for it in archive.infolist() if METADATA.fullmatch(it.filename))
        if entry.compress_type not in STEADY:
            return b""
        with archive.open(entry) as inside:
            return inside.read(MOST_METADATA)


def text_of_source(data: IO[bytes]) -> bytes:
    with Unpacked(fileobj=data) as unpacked, tarfile.open(fileobj=cast(IO[bytes], unpacked), mode="r:") as archive:
        for _ in range(MOST_PASSED):
            it = archive.next()
            if it and it.isfile() and PKG_INFO.fullmatch(it.name):
                return cast(IO[bytes], archive.extractfile(it)).read(MOST_METADATA)
            if it is None or it.offset_data + it.size > MOST_UNPACKED:
                break
            # it keeps each otherwise
            cast(Any, archive).members.clear()
    return b""


def about_of(headers: email.message.Message) -> About:
    home = home_of(headers)
    links = tuple((label, url) for label, url in urls_of(headers)
                  if is_address(url) and not (is_home(label) and url == home))
    needs = tuple(it for it in lines_of(headers, "Requires-Dist") if need_of(it))
    return About(line_of(headers["Summary"]), home, licence_of(headers), links, lines_of(headers, "Classifier"), needs)


def need_of(text: str) -> Optional[Tuple[str, str]]:
    """The name in a requirement, and what stands behind it; None if it is not one that the index could have."""
    found = NEED.fullmatch(text)
    return (found[1], found[2]) if found and is_name(found[1]) else None


def description_of(headers: email.message.Message) -> Description:
    """The text behind the headers, or in older metadata a header of its own."""
    body = headers.get_payload()
    text = body if isinstance(body, str) and body.strip() else INDENTED.sub("\n", str(headers["Description"] or ""))
    kind = str(headers["Description-Content-Type"] or "").partition(";")[0].strip().lower()
    return NO_TEXT if text.strip() in ("", "UNKNOWN") else Description(text, kind or "text/x-rst")


def line_of(value: Any) -> str:
    """The first line of a header, not too long. `UNKNOWN` is what setuptools once wrote if it knew nothing."""
    text = str(value or "").strip().split("\n")[0].strip()
    return "" if text == "UNKNOWN" else text[:MOST_TEXT]


def lines_of(headers: email.message.Message, name: str) -> Tuple[str, ...]:
    """The lines of a header that may stand several times, each once."""
    found = map(line_of, (headers.get_all(name) or [])[:MOST_LINES])
    return tuple(dict.fromkeys(filter(None, found)))


def home_of(headers: email.message.Message) -> str:
    """The home page: its own header, or the address of this label."""
    for text in (line_of(headers["Home-page"]), *(url for label, url in urls_of(headers) if is_home(label))):
        if is_address(text):
            return text
    return ""


def is_home(label: str) -> bool:
    return re.sub(r"[\W_]", "", label).lower() in HOMES


def urls_of(headers: email.message.Message) -> Iterator[Tuple[str, str]]:
    """The links of a project, each a label and an address."""
    for it in lines_of(headers, "Project-URL"):
        label, _, url = it.partition(",")
        yield label.strip()[:MOST_LABEL], url.strip()


def is_address(text: str) -> bool:
    try:
        parts = urllib.parse.urlsplit(text)
    except ValueError:
        return False
    return parts.scheme in ("http", "https") and bool(parts.hostname) and text.isprintable() and " " not in text


def licence_of(headers: email.message.Message) -> str:
    classifiers = [it.split("::")[-1].strip() for it in lines_of(headers, "Classifier") if it.startswith(CLASSIFIER)]
    return line_of(headers["License-Expression"]) or line_of(headers["License"]) or line_of(", ".join(classifiers))


def about_from(found: Any) -> Optional[About]:
    """What was kept of a file, or None if that is not of its kind."""
    if not isinstance(found, dict) or set(found) != {it.name for it in dataclasses.fields(About)}:
        return None
    texts = [found[key] for key in ("summary", "home", "licence", "described")]
    links, home = found["links"], found["home"]
    is_whole = (all(isinstance(it, str) for it in texts) and is_texts(found["classifiers"]) and isinstance(links, list)
                and all(is_texts(it) and len(it) == 2 for it in links) and is_texts(found["needs"])
                and all(map(need_of, found["needs"])))
    if not is_whole or not all(map(is_address, [*([home] if home else []), *(url for _, url in links)])):
        return None
    lists: Dict[str, Any] = {"links": tuple((label, url) for label, url in links),
                             **{key: tuple(found[key]) for key in ("classifiers", "needs")}}
    return About(**{**found, **lists})


def is_texts(found: Any) -> bool:
    return isinstance(found, list) and all(isinstance(it, str) for it in found)
