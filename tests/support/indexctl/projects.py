"""Projects with real wheels and hostile texts, for the pages for everybody."""
from __future__ import annotations

import io
import zipfile

from support.indexctl.control import digest
from support.indexctl.sample import MARKUP
from support.packages import wheel_files, wheel_name

# an id has at most 32 letters
LONGEST_USER = "maximilianalexandervonhohenstein"
TURNED = "\u202e"
SUMMARY = f"Sends & receives {MARKUP}{TURNED} messages"
REASON = f"loses <data>; nimm 2.0 \u2013 {MARKUP}"
# what a wheel says of itself, with a home page that would run a script first
DESCRIPTION = f"""# Fjord

{MARKUP}
<img src="https://elsewhere.example/badge.png" alt="built">
<img src="data:image/png;base64,AAAA" onerror="document.title = 'taken'">
[run](javascript:document.title='taken') and <b id="find" onclick="document.title = 'taken'">bold</b>
<iframe src="https://elsewhere.example/"></iframe><link rel="stylesheet" href="https://elsewhere.example/x.css">

| of | a table |
|----|---------|
| in | {TURNED}x |
"""
HEADERS = (f"Summary: {SUMMARY}\nHome-page: javascript:document.title='taken'\n"
           "Project-URL: Home Page, https://fjord.example/?a=\"><b>\nLicense: MIT\n"
           "Project-URL: Source & more, https://git.example/fjord\n"
           "Classifier: License :: OSI Approved :: BSD License\n"
           "Requires-Dist: Ember.Cache >=1; python_version < '3.9'\nRequires-Dist: requests\n"
           f"Description-Content-Type: text/markdown\n\n{DESCRIPTION}")


def wheel_of(name: str, version: str, headers: str = HEADERS) -> bytes:
    """A wheel with these headers in its METADATA."""
    files = wheel_files(name, version, "")
    files[f"{name}-{version}.dist-info/METADATA"] += headers
    body = io.BytesIO()
    with zipfile.ZipFile(body, "w") as wheel:
        for path, text in files.items():
            wheel.writestr(path, text)
    return body.getvalue()


def fill_with_projects(index):
    """Two projects more: fjord-queue has releases in an order that is not that of letters, and a yank."""
    index.claim("Fjord.Queue")
    for version in ("1.9", "1.10", "2.0rc1", "2.0", "2.1"):
        index.upload("fjord-queue", wheel_name("fjord_queue", version), wheel_of("fjord_queue", version), ">=3.8, <4")
    index.upload("fjord-queue", "fjord_queue-2.0.tar.gz", b"no archive, and nobody looks")
    index.request(do="yank", name="fjord-queue", release="2.1", reason=REASON)
    index.claim("early")
    index.request(do="add_user", user=LONGEST_USER, office=False, token_sha256=digest(LONGEST_USER))
    index.request(do="add_owner", name="early", user=LONGEST_USER)
    index.upload("early", wheel_name("early", "1.0b1"), b"no wheel")
