"""What `indexctl --help` and the manual page say of the whole."""
from __future__ import annotations

from typing import Tuple

Pairs = Tuple[Tuple[str, str], ...]
# that of the newest section of CHANGELOG.md
VERSION = "0.5.0"
ABOUT = """indexctl asks a Python package index for what its owners and its office need each day: tokens, users, names,
owners, files, quotas and retention cases. It speaks HTTP alone, so it works from any machine that reaches the index.
Only a user of the office may use the commands that are marked by (office)."""
# the pauses between trials are half a minute, and nginx waits before it says that the index is away
AGAIN = "how often to try again; 6, for half a minute, or a minute and a half if nginx waits for the index"
ENVIRONMENT: Pairs = (
    ("INDEX_URL", "the address of the index, such as https://packages.example. It and the next four stand in place of "
     "a profile, unless you name one by --profile"),
    ("INDEX_TOKEN_FILE", "a file of mode 0600 that holds your token, or a credential of systemd"),
    ("INDEX_TOKEN", "your token itself, as a pipeline has it"),
    ("INDEX_CA", "a file of certificates to trust, if those of the system are not enough"),
    ("INDEX_RECORD", "a file to which each accepted change is added as a line of JSON, without tokens"),
    ("INDEX_PROFILE", "the profile to use if INDEX_URL is not set and --profile is not given"),
    ("https_proxy", "the proxy by which your network reaches the index; no_proxy names the hosts that need none"),
    ("NO_COLOR", "if it is set, nothing is coloured"),
)
FILES: Pairs = (
    ("~/.config/indexctl.ini", "a section for each index, which is its profile: `url`, `token-file`, `ca`, `record`, "
     "and `user` with `password-file` if the proxy asks for a password. The section `default` is used unless you name "
     "another"),
    ("~/.netrc", "`login __token__` has your token as its `password`. Any other `login` and `password` are those that "
     "the proxy asks for; your token may then stand at `account`"),
)
STATUSES: Pairs = (
    ("0", "all is done"),
    ("1", "the index refused something; a person has to read why"),
    ("2", "the command, a file or a setting is wrong, and nothing was asked for; or the output can't be printed"),
    ("3", "the index could not be reached, or failed; try again later"),
    ("130", "you pressed Ctrl-C"),
    ("141", "what read the output, such as `head`, had enough"),
)
