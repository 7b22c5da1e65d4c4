"""Arguments that several commands take."""
from __future__ import annotations

from indexctl.command_line import argument

NAME, NAMES = argument("name", metavar="NAME"), argument("names", nargs="+", metavar="NAME")
FILES = argument("files", nargs="+", metavar="FILE", help="the name of a file on the index, such as frob-1.0.tar.gz")
USER, USERS = argument("user", metavar="USER"), argument("users", nargs="+", metavar="USER")
YES = argument("--yes", action="store_true", help="does not ask before what can't be taken back")
JSON = argument("--json", action="store_true", help="prints JSON")
NAME_OF_RELEASES = argument("name", metavar="NAME", help="a name, or NAME==RELEASE")
RELEASES = argument("releases", nargs="*", metavar="RELEASE",
                    help="versions as they stand in the names of files, or NAME==RELEASE of further names")
# of a command that changes or makes something
JSON_LINES = argument("--json", action="store_true", help="prints a line of JSON for each change")
TOKEN_DIGEST = argument("--digest", metavar="HEX",
                        help="the digest of the user's own token, as `token digest` prints it")
