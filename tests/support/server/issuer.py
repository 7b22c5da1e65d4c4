"""An issuer of identity tokens, as GitLab and GitHub are: it signs by the primitives of python3-cryptography, and
writes its JSON itself, so that it shares nothing with what checks the tokens."""
from __future__ import annotations

import base64
import functools
import hashlib
import hmac
import json
import os
import time
from pathlib import Path
from typing import Any

from support.needed import want_module

# a file of tests that imports this is left out as a whole without them
want_module("jwt", "python3-jwt")
want_module("cryptography", "python3-cryptography")
from cryptography.hazmat.primitives import hashes
from cryptography.hazmat.primitives.asymmetric import ec, padding, rsa
from cryptography.hazmat.primitives.asymmetric.utils import decode_dss_signature
from cryptography.hazmat.primitives.serialization import Encoding, PublicFormat
from package_index import identity, trusted
from support.library import publishers

__all__ = ["Issuer", "claims", "identity", "placed", "publishers", "trusted"]

URL, AUDIENCE, TOKEN = "https://gitlab.example", "packages.example", "token-of-frobci"
# a file of publishers, as a page of operators shows one
FILE = f"""[index]
audience = {AUDIENCE}

[issuer gitlab]
url = {URL}
keys = {URL}/oauth/discovery/keys
algorithms = RS256 ES256

[issuer github]
url = https://token.actions.githubusercontent.com
keys = https://token.actions.githubusercontent.com/.well-known/jwks
algorithms = RS256

[publisher frob]
issuer = gitlab
claim.project_path = team/frob
claim.ref_protected = true
user = frobci
projects = frob frob-extras

[publisher octo]
issuer = github
claim.repository = octo-org/octo-repo
claim.environment = prod
user = octoci
projects = octo
"""


def text_of(data: bytes) -> str:
    """As RFC 7515 has bytes: base64url without padding."""
    return base64.urlsafe_b64encode(data).rstrip(b"=").decode()


def number(value: int, length: int = 0) -> str:
    return text_of(value.to_bytes(length or (value.bit_length() + 7) // 8, "big"))


def claims(**others: Any) -> dict[str, Any]:
    """What GitLab says of a job, by its documentation, with these in place of its own or beside them; one that is None
    is left out."""
    now = int(time.time())
    found = {
        "namespace_id": "72", "namespace_path": "team", "project_id": "20", "project_path": "team/frob", "user_id": "1",
        "user_login": "sample-user", "pipeline_id": "574", "pipeline_source": "push", "job_id": "302", "ref": "main",
        "ref_type": "branch", "ref_path": "refs/heads/main", "ref_protected": "true", "runner_id": 1,
        "runner_environment": "self-hosted", "sha": "714a629c0b401fdce83e847fc9589983fc6f46bc",
        "jti": os.urandom(16).hex(), "iss": URL, "iat": now, "nbf": now - 5, "exp": now + 3600,
        "sub": "project_path:team/frob:ref_type:branch:ref:main", "aud": AUDIENCE}
    return {it: value for it, value in {**found, **others}.items() if value is not None}


class Issuer:
    """A key of RSA, `k1`, and one of a curve, `k2`; and tokens that one of them has signed."""

    def __init__(self) -> None:
        self.rsa, self.curve = rsa.generate_private_key(65537, 2048), ec.generate_private_key(ec.SECP256R1())

    def keys(self) -> dict[str, Any]:
        """The public keys, as RFC 7517 has them."""
        of, at = self.rsa.public_key().public_numbers(), self.curve.public_key().public_numbers()
        return {"keys": [
            {"kty": "RSA", "kid": "k1", "use": "sig", "alg": "RS256", "n": number(of.n), "e": number(of.e)},
            {"kty": "EC", "kid": "k2", "use": "sig", "crv": "P-256", "x": number(at.x, 32), "y": number(at.y, 32)}]}

    def public_pem(self) -> bytes:
        return self.rsa.public_key().public_bytes(Encoding.PEM, PublicFormat.SubjectPublicKeyInfo)

    def signature(self, algorithm: str, signed: bytes) -> bytes:
        if algorithm == "RS256":
            return self.rsa.sign(signed, padding.PKCS1v15(), hashes.SHA256())
        if algorithm == "ES256":
            pair = decode_dss_signature(self.curve.sign(signed, ec.ECDSA(hashes.SHA256())))
            return b"".join(it.to_bytes(32, "big") for it in pair)
        if algorithm == "PS256":
            # a signature by the right key, of a kind that nobody asked for
            whole = padding.PSS(padding.MGF1(hashes.SHA256()), hashes.SHA256.digest_size)
            return self.rsa.sign(signed, whole, hashes.SHA256())
        # what an attacker may have who knows the public key alone
        return hmac.new(self.public_pem(), signed, hashlib.sha256).digest() if algorithm == "HS256" else b""

    def token(self, said: Any = None, algorithm: str = "RS256", **head: Any) -> str:
        """An identity token with these claims (or others, as bytes), and this head in place of its own or beside it."""
        first = {"alg": algorithm, "typ": "JWT", "kid": "k2" if algorithm == "ES256" else "k1", **head}
        first = {it: value for it, value in first.items() if value is not None}
        body = said if isinstance(said, bytes) else json.dumps(claims() if said is None else said).encode()
        signed = f"{text_of(json.dumps(first).encode())}.{text_of(body)}"
        return f"{signed}.{text_of(self.signature(algorithm, signed.encode()))}"


@functools.cache
def another() -> Issuer:
    """One that signs nothing here."""
    return Issuer()


def placed(folder: Path, issuer: Issuer) -> tuple[str, str, str, str]:
    """A file of publishers, the keys of its issuers, the tokens of their users and a folder for passes: what the
    service is given."""
    for name in ("keys", "credentials", "state"):
        (folder / name).mkdir()
    (folder / "publishers.ini").write_text(FILE)
    for name in ("gitlab", "github"):
        (folder / f"keys/{name}.json").write_text(json.dumps((issuer if name == "gitlab" else another()).keys()))
    for user in ("frobci", "octoci"):
        (folder / f"credentials/token_{user}").write_text(f"token-of-{user}\n")
    return (f"{folder}/publishers.ini", f"{folder}/keys", f"{folder}/credentials", f"{folder}/state")
