"""Identity tokens of pipelines (OpenID Connect, RFC 7519), checked as RFC 8725 has it. PyJWT checks signatures and
claims, by keys of python3-cryptography.

Nothing of a token is believed before a key that the operator's issuer has published says so. Its head chooses among
these keys by `kid`, and nothing else: not the algorithm, not the issuer, and no address of keys."""
from __future__ import annotations

import json
import re
from typing import Any, Dict, List, NamedTuple, NoReturn, Sequence, Tuple

import jwt
from cryptography.hazmat.primitives.asymmetric.ec import EllipticCurvePublicKey
from cryptography.hazmat.primitives.asymmetric.rsa import RSAPublicKey

from package_index.publishers import Issuer
from package_index.replies import Refused

TOKEN = re.compile(r"[A-Za-z0-9_-]+\.[A-Za-z0-9_-]+\.[A-Za-z0-9_-]+")
MOST_TOKEN, MOST_KEY_SET, MOST_JTI = 8192, 1 << 18, 256
# seconds: by which clocks may differ, and how long an identity token may be valid
LEEWAY, MOST_LIFE = 60, 86_400
REQUIRED = ["iss", "aud", "exp", "iat", "jti"]
# of a key of RSA
BITS = range(2048, 8193)
# what a text that is no token at all raises in PyJWT besides its own errors, such as JSON of a thousand brackets
ODD = ValueError, TypeError, KeyError, AttributeError, ArithmeticError, RecursionError


class Key(NamedTuple):
    """A public key, and the one algorithm for which it is used."""
    algorithm: str
    public: Any


Keys = Dict[str, Key]


class NoKey(Refused):
    """No key that is known has signed it."""


def key_in(made: Any, algorithms: Sequence[str]) -> Key:
    """A key of a key set (RFC 7517). ValueError if it is none of these algorithms, or is none to check by."""
    algorithm = {"RSA": "RS256", "EC": "ES256"}.get(made["kty"], "")
    is_meant = made.get("alg", algorithm) == algorithm and made.get("use", "sig") == "sig"
    if algorithm not in algorithms or not is_meant or not isinstance(made["kid"], str):
        raise ValueError("a key for something else")
    reader: Any = jwt.PyJWK
    public = reader.from_dict(made, algorithm).key
    is_rsa = isinstance(public, RSAPublicKey) and public.key_size in BITS
    if not is_rsa and not (isinstance(public, EllipticCurvePublicKey) and public.curve.name == "secp256r1"):
        raise ValueError("a key that is too short, private or of another kind")
    return Key(algorithm, public)


def keys_in(text: str, algorithms: Sequence[str]) -> Keys:
    """The keys of a key set for these algorithms, by their ids. ValueError if it has none, or two of one id."""
    found: Keys = {}
    try:
        listed: List[Any] = json.loads(text)["keys"]
        for made in listed:
            try:
                key = key_in(made, algorithms)
            except (jwt.PyJWTError, *ODD):
                continue
            if found.setdefault(made["kid"], key) is not key:
                raise ValueError(f"two keys have the id {made['kid']!r}")
    except ODD as end:
        raise ValueError(f"this is not a set of keys: {end}") from None
    if not found:
        raise ValueError(f"it has no key for {' or '.join(algorithms)}")
    return found


def refuse(sentence: str, note: str = "") -> NoReturn:
    raise Refused(422, sentence, note)


def head_of(token: str) -> Dict[str, Any]:
    """The head of an identity token, of which nobody knows yet who made it."""
    if len(token) > MOST_TOKEN or not TOKEN.fullmatch(token):
        refuse("this is no identity token; send the one that the pipeline got for this index")
    try:
        head: Dict[str, Any] = jwt.get_unverified_header(token)
    except (jwt.PyJWTError, *ODD) as end:
        refuse("this is no identity token; send the one that the pipeline got for this index", repr(end))
    if "crit" in head or str(head.get("typ", "JWT")).upper() != "JWT":
        refuse("this token is made for another use; send the identity token of the pipeline", f"head {head}")
    return head


def claims_in(token: str, known: Sequence[Tuple[Issuer, Keys]], audience: str) -> Tuple[Issuer, Dict[str, Any]]:
    """The issuer of an identity token, and the claims for which it stands. Refuses what none of these issuers has
    signed, what is for another audience, and what is not valid now."""
    head = head_of(token)
    for issuer, keys in known:
        key = keys.get(head.get("kid", ""))
        if not key:
            continue
        try:
            claims = jwt.decode(token, key.public, algorithms=[key.algorithm], issuer=issuer.url, audience=audience,
                                leeway=LEEWAY, options={"require": REQUIRED})
        except (jwt.InvalidSignatureError, jwt.InvalidAlgorithmError):
            continue
        except (jwt.PyJWTError, *ODD) as end:
            refuse(sentence_of(end, audience), f"of {issuer.name}: {end!r}")
        want_bounds(issuer, claims)
        return issuer, claims
    raise NoKey(422, "no key of an issuer that is known here has signed this identity token; ask the operator to add "
                     "the issuer", f"head {head}")


def sentence_of(end: Exception, audience: str) -> str:
    """What the client is told to do about an error of PyJWT."""
    if isinstance(end, jwt.ExpiredSignatureError):
        return "this identity token has ended; run the job again"
    if isinstance(end, jwt.ImmatureSignatureError):
        return "this identity token is not valid yet; compare the clocks of the pipeline and of the index"
    if isinstance(end, (jwt.InvalidAudienceError, jwt.InvalidIssuerError)):
        return f"this identity token is not for this index; have the pipeline ask for one with the audience {audience}"
    return "this identity token lacks what each has to have, or has it in another form; tell the operator"


def want_bounds(issuer: Issuer, claims: Dict[str, Any]) -> None:
    """Refuses a token that is valid for longer than it can be remembered, and one that has no id by which to do it."""
    times, jti = (claims["iat"], claims["exp"]), claims["jti"]
    if not all(type(it) is int for it in times) or not isinstance(jti, str) or not 0 < len(jti) <= MOST_JTI:
        refuse("this identity token lacks what each has to have, or has it in another form; tell the operator",
               f"of {issuer.name}: times {times}")
    if not 0 < times[1] - times[0] <= MOST_LIFE:
        refuse("this identity token is valid for more than a day; give the job a shorter timeout",
               f"of {issuer.name}: times {times}")
