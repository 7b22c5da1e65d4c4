"""What index-restore says of what a restore forgets, and of the way back."""
from __future__ import annotations

FORGOTTEN = """
What a restore forgets, to work through now:

1. Changes since {since}.
   {changes}
   Repeat the bans, prohibitions, yanks, tokens and owners among them.
2. File names bound since then. Ask their owners to upload the same bytes again, and nobody to upload others:
   the index would take them. Installers that pin a file by its digest are safe either way.
3. Files that were uploaded and banned since then. The index doesn't know them and can't ban them (NoFile), so
   an owner may upload them again, and only then can they be banned. If that is too late, prohibit the project
   meanwhile; that deletes its other files too.
4. {pypi}{elsewhere}
{back}"""
ELSEWHERE = """5. nginx on other machines. It goes on with PyPI, and with files and pages of before. On each, as root:
   [ ! -e {conf} ] || {{ mv {conf} {conf}.off && systemctl reload nginx; }}
   find {caches} -type f -delete
"""
BACK = """The database and log of before are in {aside}.
To go back to them: index-restore {its}{aside}/index.db
"""
BACK_TO_OTHER = """No database was in its place. The newest that an earlier restore put aside is {other}
To go back to it: index-restore {its}{other}
"""
PYPI_OFF = """Names claimed since then. They are free now and would come from PyPI, so PyPI was taken off:
   {off}
   When all claims are repeated: mv {off} {conf}
   and systemctl reload nginx.
"""
START_IT = "start the index now: --unit none starts nothing\n"
PYPI_NONE = "Names claimed since then. They are free now: repeat the claims.\n"
