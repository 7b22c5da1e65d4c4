"""Trusted publishing: a pipeline shows the identity token that its server signed, and gets a pass by which it uploads
the projects of its publisher, as that publisher's user. The addresses and the JSON are those of pypi.org."""
from __future__ import annotations

import json
import os
import sqlite3
import time
from typing import Any, Dict, List, NamedTuple, Tuple

from package_index import ends
from package_index.identity import LEEWAY, MOST_KEY_SET, TOKEN, Keys, NoKey, claims_in, keys_in
from package_index.passes import PREFIX, Passes
from package_index.publishers import MINT, Issuer, Publisher, publishers_in
from package_index.replies import Refused

# of what is logged of claims
MOST_NOTE = 300


class Kept(NamedTuple):
    """The keys of an issuer, and the file that had them: when it was written, and its size."""
    of: Tuple[int, int]
    keys: Keys


def token_of(folder: str, user: str) -> str:
    """The token of a user, as systemd gives it to the service."""
    try:
        with open(f"{folder}/token_{user}", encoding="ascii") as kept:
            found = kept.read(1 << 12).strip()
    except (OSError, ValueError) as end:
        raise ends.Refused(f"no token of the user {user}: {end}") from None
    if not found or not found.isprintable():
        raise ends.Refused(f"{folder}/token_{user} has no token")
    return found


class Exchange:
    """What the service knows of publishers, from their file; the tokens of their users, from a folder of systemd's
    credentials; the keys of their issuers, from a folder that index-publishers keeps up to date; and passes, which it
    keeps in a folder of its own."""

    def __init__(self, path: str, keys: str, credentials: str, state: str) -> None:
        self.known, self.folder = publishers_in(path), keys
        self.kept: Dict[str, Kept] = {}
        self.tokens = {it.user: token_of(credentials, it.user) for it in self.known.publishers.values()}
        try:
            self.passes = Passes(f"{state}/passes.db")
        except sqlite3.Error as end:
            raise ends.Refused(f"{state}/passes.db: {end}") from None

    def audience(self) -> str:
        return json.dumps({"audience": self.known.audience})

    def keys_of(self, issuer: Issuer) -> Keys:
        """The keys of an issuer, read again if their file has changed. None are known if it is not there."""
        path = f"{self.folder}/{issuer.name}.json"
        try:
            with open(path, encoding="utf-8") as opened:
                now = os.fstat(opened.fileno())
                found = self.kept.get(issuer.name)
                if not found or found.of != (now.st_mtime_ns, now.st_size):
                    found = Kept((now.st_mtime_ns, now.st_size), keys_in(opened.read(MOST_KEY_SET), issuer.algorithms))
                    self.kept[issuer.name] = found
        except (OSError, ValueError) as end:
            raise Refused(503, "the keys of issuers can't be read; tell the operator", f"{path}: {end}") from None
        return found.keys

    def exchanged(self, body: bytes) -> Tuple[str, str]:
        """A reply with a pass for the identity token in this body, and what to log. Refuses an identity token that
        fits no publisher."""
        try:
            token = json.loads(body)["token"]
        except (ValueError, KeyError, TypeError, RecursionError):
            token = None
        if not isinstance(token, str):
            raise Refused(422, 'the body has to be {"token": "IDENTITY TOKEN"}')
        issuer, claims = self.identified(token)
        fit = [it.name for it in self.known.publishers.values() if it.issuer == issuer.name and it.fits(claims)]
        if not fit:
            raise Refused(422, "no publisher here fits this pipeline; ask the operator for an entry with its project, "
                               "and run it on a branch, tag or environment that is meant for it",
                          self.told(issuer, claims))
        now = int(time.time())
        made = self.kept_pass(issuer, claims, fit, now)
        return json.dumps({"success": True, "token": made}), f"a pass for {' '.join(fit)}"

    def identified(self, token: str) -> Tuple[Issuer, Dict[str, Any]]:
        """The issuer and the claims of an identity token. An issuer whose keys are not there hinders no other one."""
        known: List[Tuple[Issuer, Keys]] = []
        lacks: List[Refused] = []
        for it in self.known.issuers.values():
            try:
                known.append((it, self.keys_of(it)))
            except Refused as end:
                lacks.append(end)
        try:
            return claims_in(token, known, self.known.audience)
        except NoKey as end:
            raise (lacks or [end])[0] from None

    def kept_pass(self, issuer: Issuer, claims: Dict[str, Any], fit: List[str], now: int) -> str:
        """A pass for these publishers, once it is on the disk that the identity token was used."""
        try:
            return self.passes.give(issuer.url, claims["jti"], claims["exp"] + LEEWAY + 1, fit, now)
        except sqlite3.Error as end:
            raise Refused(503, "the index can't keep passes now; tell the operator", f"passes.db: {end}") from None

    def told(self, issuer: Issuer, claims: Dict[str, Any]) -> str:
        """For the operator: what an identity token says where the publishers of its issuer say something."""
        asked = sorted({it for each in self.known.publishers.values() if each.issuer == issuer.name
                        for it in each.claims})
        return f"of {issuer.name}: {', '.join(f'{it} {claims.get(it)!a}' for it in asked)}"[:MOST_NOTE]

    def uploader(self, password: str, project: str) -> Tuple[str, str]:
        """The token by which the bearer of this password uploads to a project, and the publisher; the password itself
        and nobody, if it is the token of a user. Refuses a pass that is not for the project."""
        if TOKEN.fullmatch(password) and password.startswith("eyJ"):
            raise Refused(401, f"an identity token is no password; exchange it for one at {MINT} first")
        if not password.startswith(PREFIX):
            return password, ""
        try:
            names = self.passes.publishers_of(password, int(time.time()))
        except sqlite3.Error as end:
            raise Refused(503, "the index can't read passes now; tell the operator", f"passes.db: {end}") from None
        fit: List[Publisher] = [self.known.publishers[it] for it in names if it in self.known.publishers]
        if not fit:
            raise Refused(401, "this password of a pipeline has ended, after a quarter of an hour; run the job again")
        for it in fit:
            if project in it.projects:
                return self.tokens[it.user], it.name
        raise Refused(403, f"this pipeline may not upload {project}; ask the operator to add it to its entry",
                      f"of {' '.join(names)}")
