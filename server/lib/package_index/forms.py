"""Forms as twine and its like send them (RFC 7578), with a file among their fields."""
from __future__ import annotations

import email.parser
import mmap
from typing import Any, Dict, Iterator, NamedTuple, Optional, Tuple, Union

from package_index.replies import Refused

MOST_PARTS, MOST_HEAD, MOST_VALUE = 4096, 2048, 4096
# of a head of a part, which has one or two: it is read in a time that grows by their square
MOST_SEMICOLONS = 16
FIELDS = (":action", "protocol_version", "name", "requires_python", "sha256_digest", "content", "gpg_signature",
          "attestations")


class Field(NamedTuple):
    """A field of a form: the file name that came with it, if it is a file, and its bytes."""
    file: Optional[Union[str, Tuple[Any, ...]]] = None
    data: Union[bytes, memoryview] = b""


def parts_of(form: mmap.mmap, boundary: bytes) -> Iterator[Tuple[bytes, memoryview]]:
    """The head and the bytes of each part of a form (RFC 7578). A form that is malformed or breaks off is refused."""
    edge, at = b"--" + boundary, len(boundary) + 2
    if form[:at] != edge:
        raise Refused(400, "the form is malformed: it does not begin with its boundary")
    for _ in range(MOST_PARTS + 1):
        if form[at:at + 5] in (b"--", b"--\r\n"):
            return
        head_end = form.find(b"\r\n\r\n", at, at + MOST_HEAD)
        end = form.find(b"\r\n" + edge, head_end + 4)
        head = form[at + 2:head_end + 2]
        if form[at:at + 2] != b"\r\n" or head_end < 0 or end < 0 or head.count(b";") > MOST_SEMICOLONS:
            raise Refused(400, "the form is malformed or breaks off")
        yield head, memoryview(form)[head_end + 4:end]
        at = end + 2 + len(edge)
    raise Refused(400, f"the form has more than {MOST_PARTS} fields")


def fields_of(form: mmap.mmap, boundary: bytes) -> Dict[str, Field]:
    """The fields that count. Other metadata is passed over."""
    found: Dict[str, Field] = {}
    for head, data in parts_of(form, boundary):
        headers = email.parser.BytesHeaderParser().parsebytes(head)
        name, file = headers.get_param("name", header="content-disposition"), headers.get_filename()
        if headers.get_content_disposition() != "form-data" or not isinstance(name, str):
            raise Refused(400, "the form is malformed: a field has no name")
        if file is not None and name not in ("content", "gpg_signature"):
            raise Refused(400, f"the form has a file in the field {name!r}, which the index can't keep")
        if name in found:
            raise Refused(400, f"the field {name!r} stands twice in the form")
        if name in FIELDS:
            found[name] = Field(file, data)
    return found


def text_of(fields: Dict[str, Field], name: str) -> str:
    """The value of a field as text, or an empty one."""
    data = bytes(fields.get(name, Field()).data[:MOST_VALUE + 1])
    try:
        text = " ".join(data.decode("utf-8").split())
    except UnicodeDecodeError:
        text = "\N{REPLACEMENT CHARACTER}"
    if len(data) > MOST_VALUE or not text.isascii() or not text.isprintable():
        raise Refused(400, f"the field {name!r} is too long, or has characters that the index can't keep")
    return text
