"""The file of publishers: which pipelines of which issuers may upload what, and as which user of the index.

    [index]
    audience = packages.example

    [issuer gitlab]
    url = https://gitlab.example
    keys = https://gitlab.example/oauth/discovery/keys
    algorithms = RS256

    [publisher frob]
    issuer = gitlab
    claim.project_path = team/frob
    claim.ref_protected = true
    user = frobci
    projects = frob frob-extras

What an identity token has to be stands here alone. A key that is not known is refused: with a claim that was misspelt
more pipelines might upload."""
from __future__ import annotations

import configparser
import re
from typing import Dict, List, NamedTuple, NoReturn, Tuple

from package_index.ends import Refused
from package_index.names import is_name, is_user, normal

# where a pipeline asks for which audience its identity token has to be, and where it exchanges that; and the most bytes
# in which it comes
AUDIENCE, MINT, MOST_BODY = "/_/oidc/audience", "/_/oidc/mint-token", 1 << 14
ALGORITHMS = "RS256", "ES256"
KINDS = {"index": {"audience"}, "issuer": {"url", "keys", "algorithms"}, "publisher": {"issuer", "user", "projects"}}
NAME = re.compile("[a-z0-9][a-z0-9-]{0,31}")
CLAIM = "claim."
# By one of these an issuer says of which project a pipeline is, and by one of those on what it runs. `sub` has both.
OF_PROJECT = {"sub", "project_path", "project_id", "repository", "repository_id"}
OF_REF = {"sub", "ref_protected", "ref", "ref_path", "environment", "environment_protected", "job_workflow_ref",
          "ci_config_ref_uri"}


class Issuer(NamedTuple):
    """Who signs identity tokens: its `iss`, where its keys are, and the algorithms that are taken of it."""
    name: str
    url: str
    keys: str
    algorithms: Tuple[str, ...]


class Publisher(NamedTuple):
    """The claims that a pipeline has to have, the user as which it uploads, and the projects that it may upload."""
    name: str
    issuer: str
    claims: Dict[str, str]
    user: str
    projects: Tuple[str, ...]

    def fits(self, claims: Dict[str, object]) -> bool:
        """Whether an identity token of its issuer has each of its claims, as a text and to the letter."""
        return all(isinstance(claims.get(it), str) and claims[it] == value for it, value in self.claims.items())


class Publishers(NamedTuple):
    """What the file has, issuers and publishers by their names."""
    audience: str
    issuers: Dict[str, Issuer]
    publishers: Dict[str, Publisher]


class Lines(configparser.RawConfigParser):
    """Sections with keys as they are written: claims are told apart by capitals."""

    def __init__(self) -> None:
        super().__init__(delimiters=("=",), comment_prefixes=("#",), default_section="", empty_lines_in_values=False)

    def optionxform(self, optionstr: str) -> str:
        return optionstr


class Reader:
    """Reads a file of publishers. What is wrong is told with its line."""

    def __init__(self, path: str, text: str) -> None:
        self.path, self.text, self.sections = path, text, Lines()
        try:
            self.sections.read_string(text)
        except configparser.MissingSectionHeaderError as end:
            self.refuse(end.lineno, "a section such as `[publisher frob]` has to come first")
        except configparser.ParsingError as end:
            self.refuse(end.errors[0][0], "this is not a line such as `user = frobci`")
        except (configparser.DuplicateSectionError, configparser.DuplicateOptionError) as end:
            self.refuse(end.lineno or 1, "this stands twice")

    def refuse(self, line: int, what: str) -> NoReturn:
        raise Refused(f"{self.path}, line {line}: {what}")

    def refuse_at(self, section: str, key: str, what: str) -> NoReturn:
        """Refuses what stands at a key, or at the head of the section if it has none of the name."""
        at = 1
        lines = self.text.splitlines()
        for number, line in enumerate(lines, 1):
            if line.startswith(f"[{section}]"):
                at = number
        for number, line in enumerate(lines[at:], at + 1):
            if line.startswith("["):
                break
            if key and line.partition("=")[0].strip() == key:
                at = number
        self.refuse(at, what)

    def value(self, section: str, key: str) -> str:
        found = " ".join(self.sections.get(section, key, fallback="").split())
        if not found:
            self.refuse_at(section, key, f"[{section}] says no `{key}`")
        return found

    def address(self, section: str, key: str) -> str:
        found = self.value(section, key)
        if not re.fullmatch(r"https://[A-Za-z0-9.-]+(:[0-9]{1,5})?(/[!-~]*)?", found):
            self.refuse_at(section, key, f"{found} is not an address such as https://gitlab.example")
        return found

    def known_keys(self, section: str, kind: str) -> None:
        for key in self.sections[section]:
            if key not in KINDS[kind] and not (kind == "publisher" and re.fullmatch(r"claim\.\w+", key)):
                self.refuse_at(section, key, f"`{key}` is not known here")

    def issuer(self, section: str, name: str, others: Dict[str, Issuer]) -> Issuer:
        algorithms = tuple(self.value(section, "algorithms").split())
        for it in algorithms:
            if it not in ALGORITHMS:
                self.refuse_at(section, "algorithms", f"{it} is not one of {', '.join(ALGORITHMS)}")
        found = Issuer(name, self.address(section, "url"), self.address(section, "keys"), algorithms)
        if found.url in {it.url for it in others.values()}:
            self.refuse_at(section, "url", "another issuer has this address")
        return found

    def publisher(self, section: str, name: str, issuers: Dict[str, Issuer]) -> Publisher:
        issuer, user = self.value(section, "issuer"), self.value(section, "user")
        projects = tuple(self.value(section, "projects").split())
        if issuer not in issuers:
            self.refuse_at(section, "issuer", f"there is no [issuer {issuer}]")
        if not is_user(user):
            self.refuse_at(section, "user", f"{user} is not the id of a user")
        for it in projects:
            if not is_name(it) or normal(it) != it:
                self.refuse_at(section, "projects", f"{it} is not the normal form of a project's name")
        claims = {it[len(CLAIM):]: self.value(section, it) for it in self.sections[section] if it.startswith(CLAIM)}
        for kind, known in (("the project", OF_PROJECT), ("the branch, tag or environment", OF_REF)):
            if not known & claims.keys():
                self.refuse_at(section, "", f"no claim says {kind}: {', '.join(sorted(known))}")
        return Publisher(name, issuer, claims, user, projects)

    def whole(self) -> Publishers:
        issuers: Dict[str, Issuer] = {}
        publishers: Dict[str, Publisher] = {}
        named: List[Tuple[str, str, str]] = []
        for section in self.sections.sections():
            kind, _, name = section.partition(" ")
            if kind not in KINDS or (kind == "index") != (not name) or name and not NAME.fullmatch(name):
                self.refuse_at(section, "", "this is none of [index], [issuer NAME] and [publisher NAME], with a NAME "
                                            "of a to z, 0 to 9 and hyphens")
            self.known_keys(section, kind)
            named.append((section, kind, name))
        for section, kind, name in named:
            if kind == "issuer":
                issuers[name] = self.issuer(section, name, issuers)
        for section, kind, name in named:
            if kind == "publisher":
                publishers[name] = self.publisher(section, name, issuers)
        return Publishers(self.value("index", "audience"), issuers, publishers)


def publishers_in(path: str) -> Publishers:
    """What a file of publishers has. Refuses what is wrong in it with its line."""
    with open(path, encoding="utf-8", errors="replace") as kept:
        return Reader(path, kept.read()).whole()
