"""What a release says of itself: its commit in the program's `--version`, and the text of its tag."""
from __future__ import annotations

import re
import textwrap

COMMAND = "crates/index_args/src/command.rt"
CONSTANT = re.compile(r'^(const VERSION: &str = ")(\S+) \((.*)\)(";)$', re.M)
SECTION = re.compile(r"^## (\S+), ([^\n]*)\n\n(.*?)(?=^## |\Z)", re.M | re.S)
NOT_YET, COLUMNS = "not yet released", 72


class Refused(Exception):
    """What is asked for is no release."""


def sections(changelog: str) -> list[tuple[str, str, str]]:
    """The sections of CHANGELOG.md, newest first: the version, the day, and the text."""
    return [(found[1], found[2], found[3]) for found in SECTION.finditer(changelog)]


def notes(changelog: str, version: str) -> str:
    """What CHANGELOG.md says of a version that is released."""
    for named, day, text in sections(changelog):
        if named == version and day == NOT_YET:
            raise Refused(f"CHANGELOG.md says that {version} is {NOT_YET}: give its section the day")
        if named == version:
            return text
    raise Refused(f"CHANGELOG.md has no section for {version}")


def tag_text(changelog: str, version: str) -> str:
    """The text of the tag: what CHANGELOG.md says, with the words of links alone, in lines of 72 columns."""
    plain = re.sub(r"\[([^]]*)\]\([^)]*\)", r"\1", notes(changelog, version))
    plain = re.sub(r"^#+ ", "", plain, flags=re.M)      # git takes a line with # for a comment
    paragraphs = [it for it in re.split(r"\n(?=- |\d+\. )|\n\n+", plain.strip()) if it]
    filled = [textwrap.fill(" ".join(it.split()), COLUMNS, subsequent_indent="  " if it.startswith("- ") else "",
                            break_long_words=False, break_on_hyphens=False) for it in paragraphs]
    return f"index {version}\n\n" + "\n".join(filled) + "\n"


def with_commit(source: str, version: str, commit: str) -> tuple[str, str]:
    """The source of the command line with the commit in what `--version` prints, and that text."""
    found = CONSTANT.findall(source)
    if len(found) != 1 or found[0][1] != version:
        raise Refused(f"{COMMAND} has the version {', '.join(it[1] for it in found) or 'of nothing'}, not {version}")
    told = f"{version} (commit {commit}, {found[0][2]})"
    return CONSTANT.sub(lambda it: f"{it[1]}{told}{it[4]}", source), f"index {told}"
