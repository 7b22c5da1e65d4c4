"""Identity tokens and keys of issuers: what is refused, with the cases of RFC 8725 among it."""
import json
import time

import pytest
from support.library import replies
from support.planted import catches
from support.server.issuer import AUDIENCE, FILE, URL, Issuer, claims, identity, publishers, text_of

BOTH = "RS256", "ES256"
# the key set of RFC 7517, A.1: a key that encrypts, and one that signs
RFC_7517 = """{"keys":
  [{"kty":"EC", "crv":"P-256", "x":"MKBCTNIcKUSDii11ySs3526iDZ8AiTo7Tu6KPAqv7D4",
    "y":"4Etl6SRW2YiLUrN5vfvVHuhp7x8PxltmWWlbbM4IFyM", "use":"enc", "kid":"1"},
   {"kty":"RSA", "n": "\
0vx7agoebGcQSuuPiLJXZptN9nndrQmbXEps2aiAFbWhM78LhWx4cbbfAAtVT86zwu1RK7aPFFxuhDR1L6tSoc_BJECPebWKRXjBZCiFV4n3oknjhM\
stn64tZ_2W-5JsGY4Hc5n9yBXArwl93lqt7_RN5w6Cf0h4QyQ5v-65YGjQR0_FDW2QvzqY368QQMicAtaSqzs8KJZgnYb9c7d0zgdAZHzu6qMQvRL5\
hajrn1n91CbOpbISD08qNLyrdkt-bFTWhAI4vMQFh6WeZu0fM4lFd2NcRwr3XPksINHaQ-G_xBniIqbw0Ls1jF44-csFCur-kEgU8awapJzKnqDKgw",
    "e":"AQAB", "alg":"RS256", "kid":"2011-04-29"}]}"""


class After(int):
    """So many seconds after the moment at which a test runs."""


def said_now(said):
    now = int(time.time())
    return claims(**{it: now + int(value) if isinstance(value, After) else value for it, value in said.items()})


@pytest.fixture(scope="module")
def issuer():
    return Issuer()


@pytest.fixture(scope="module")
def other():
    return Issuer()


def known(issuer, algorithms=BOTH):
    named = publishers.Issuer("gitlab", URL, f"{URL}/keys", algorithms)
    return [(named, identity.keys_in(json.dumps(issuer.keys()), algorithms))]


def refusal(issuer, token, algorithms=BOTH):
    with pytest.raises(replies.Refused) as refused:
        identity.claims_in(token, known(issuer, algorithms), AUDIENCE)
    return refused.value


@pytest.mark.parametrize("algorithm", BOTH)
@pytest.mark.parametrize("more", [{}, {"aud": ["pypi", AUDIENCE]}, {"nbf": None}, {"nbf": After(50)},
                                  {"iat": After(-5000), "exp": After(-30)}, {"exp": After(86_000)}])
def test_a_token_of_the_issuer_is_taken(issuer, algorithm, more):
    made = said_now(more)
    of, found = identity.claims_in(issuer.token(made, algorithm), known(issuer), AUDIENCE)
    assert (of.name, found) == ("gitlab", made)


def test_a_token_as_github_writes_it_is_taken(issuer):
    made = claims(iss="https://token.actions.githubusercontent.com", repository="octo-org/octo-repo")
    named = publishers.Issuer("github", made["iss"], "", ("RS256",))
    keys = identity.keys_in(json.dumps(issuer.keys()), ("RS256",))
    token = issuer.token(made, x5t="example-thumbprint")
    of, found = identity.claims_in(token, [*known(Issuer()), (named, keys)], AUDIENCE)
    assert (of.name, found["repository"]) == ("github", "octo-org/octo-repo")


NOBODY = "no key of an issuer that is known here has signed this identity token"
NONE, ELSEWHERE = "this is no identity token", "this identity token is not for this index"
ENDED, EARLY, LACKS = "has ended; run the job again", "is not valid yet", "lacks what each has to have"


def minus(name):
    return {name: None}


# what a token says in place of what it should, its head, and what it is refused by
CASES = {
    "alg none": ({}, {"alg": "none"}, NOBODY), "alg None": ({}, {"alg": "None"}, NOBODY),
    "alg none without a signature": ({}, {"algorithm": "none"}, NONE),
    "HS256 by the public key": ({}, {"algorithm": "HS256"}, NOBODY),
    "RS256 in its head by the curve": ({}, {"algorithm": "ES256", "alg": "RS256", "kid": "k1"}, NOBODY),
    "the key of the curve for RS256": ({}, {"kid": "k2"}, NOBODY),
    "PS256": ({}, {"algorithm": "PS256"}, NOBODY), "no alg": ({}, {"alg": None}, NOBODY),
    "alg a list": ({}, {"alg": ["RS256"]}, NOBODY),
    "other kid": ({}, {"kid": "k3"}, NOBODY), "no kid": ({}, {"kid": None}, NOBODY),
    "kid a number": ({}, {"kid": 1}, NONE), "kid a path": ({}, {"kid": "../../dev/null"}, NOBODY),
    # (later versions of PyJWT refuse some of these themselves)
    "crit": ({}, {"crit": ["exp"]}, "; send the"),
    "b64": ({}, {"crit": ["b64"], "b64": False}, "; send the"),
    "an access token": ({}, {"typ": "at+jwt"}, "made for another use"),
    "other issuer": ({"iss": "https://gitlab.com"}, {}, ELSEWHERE), "no issuer": (minus("iss"), {}, LACKS),
    "issuer a list": ({"iss": [URL]}, {}, ELSEWHERE), "issuer with a slash": ({"iss": f"{URL}/"}, {}, ELSEWHERE),
    "other audience": ({"aud": "https://pypi.org"}, {}, ELSEWHERE), "no audience": (minus("aud"), {}, LACKS),
    "audience within": ({"aud": f"{AUDIENCE}.evil"}, {}, ELSEWHERE),
    "audiences of others": ({"aud": ["a"]}, {}, ELSEWHERE),
    "no audience in a list": ({"aud": []}, {}, LACKS), "audience an object": ({"aud": {AUDIENCE: 1}}, {}, ELSEWHERE),
    "ended": ({"iat": After(-4000), "exp": After(-120)}, {}, ENDED), "no end": (minus("exp"), {}, LACKS),
    "end a word": ({"exp": "soon"}, {}, LACKS), "end as a text": ({"exp": "9999999999"}, {}, LACKS),
    "end a list": ({"exp": [9999999999]}, {}, LACKS), "end true": ({"exp": True}, {}, ENDED),
    "no end ever": ({"exp": 1e999}, {}, LACKS), "end a fraction": ({"exp": 9999999999.5}, {}, LACKS),
    "not yet by nbf": ({"nbf": After(600)}, {}, EARLY), "not yet by iat": ({"iat": After(600)}, {}, EARLY),
    "no iat": (minus("iat"), {}, LACKS), "iat a text": ({"iat": "1000000000"}, {}, LACKS),
    "more than a day": ({"exp": After(90_000), "iat": After(0)}, {}, "valid for more than a day"),
    "ends before it begins": ({"iat": After(0), "exp": After(-30)}, {}, "valid for more than a day"),
    "no jti": (minus("jti"), {}, LACKS), "jti empty": ({"jti": ""}, {}, LACKS), "jti a number": ({"jti": 7}, {}, LACKS),
    "jti long": ({"jti": "a" * 257}, {}, LACKS),
}


@catches("server/lib/package_index/identity.py", "algorithms=[key.algorithm], issuer",
         'algorithms=[str(head.get("alg"))], issuer', case="PS256",
         also=["server/test_trusted_publishing.py::test_an_identity_token_is_refused_and_nothing_is_uploaded[PS256]"])
@catches("server/lib/package_index/identity.py", 'key = keys.get(head.get("kid", ""))',
         'key = keys.get(head.get("kid", ""), next(iter(keys.values())))', case="other kid",
         also=["server/test_trusted_publishing.py::"
               "test_an_identity_token_is_refused_and_nothing_is_uploaded[other kid]"])
@catches("server/lib/package_index/identity.py", "issuer=issuer.url, audience",
         'issuer=jwt.decode(token, options={"verify_signature": False}).get("iss"), audience', case="other issuer",
         also=["test_a_token_is_refused[issuer with a slash]", "server/test_trusted_publishing.py::"
               "test_an_identity_token_is_refused_and_nothing_is_uploaded[other issuer]"])
@catches("server/lib/package_index/identity.py", "audience=audience,",
         'audience=jwt.decode(token, options={"verify_signature": False}).get("aud"),', case="other audience",
         also=["test_a_token_is_refused[audience within]", "server/test_trusted_publishing.py::"
               "test_an_identity_token_is_refused_and_nothing_is_uploaded[other audience]"])
@catches("server/lib/package_index/identity.py", 'options={"require": REQUIRED})',
         'options={"require": REQUIRED, "verify_exp": False})', case="ended",
         also=["server/test_trusted_publishing.py::test_an_identity_token_is_refused_and_nothing_is_uploaded[ended]"])
@catches("server/lib/package_index/identity.py", 'options={"require": REQUIRED})',
         'options={"require": REQUIRED, "verify_nbf": False, "verify_iat": False})', case="not yet by nbf",
         also=["test_a_token_is_refused[not yet by iat]",
               "server/test_trusted_publishing.py::test_an_identity_token_is_refused_and_nothing_is_uploaded[not yet]",
               "server/test_trusted_publishing.py::"
               "test_an_identity_token_is_refused_and_nothing_is_uploaded[made later]"])
@catches("server/lib/package_index/identity.py", 'options={"require": REQUIRED})', 'options={"require": ["jti"]})',
         ("server/lib/package_index/identity.py", '(claims["iat"], claims["exp"]), claims["jti"]',
          '(claims["iat"], claims.get("exp", claims["iat"] + 9)), claims["jti"]'),
         ("server/lib/package_index/trusted.py", 'claims["exp"] + LEEWAY', 'claims.get("exp", 0) + LEEWAY'),
         case="no end",
         also=["server/test_trusted_publishing.py::test_an_identity_token_is_refused_and_nothing_is_uploaded[no end]"])
@catches("server/lib/package_index/identity.py", "if not 0 < times[1] - times[0] <= MOST_LIFE:", "if not times:",
         case="more than a day",
         also=["server/test_trusted_publishing.py::"
               "test_an_identity_token_is_refused_and_nothing_is_uploaded[for years]"])
@catches("server/lib/package_index/identity.py", 'if "crit" in head or str(head.get("typ", "JWT")).upper() != "JWT":',
         "if not head:", case="an access token",
         also=["server/test_trusted_publishing.py::"
               "test_an_identity_token_is_refused_and_nothing_is_uploaded[an access token]"])
@pytest.mark.parametrize("said, head, why", CASES.values(), ids=CASES)
def test_a_token_is_refused(issuer, said, head, why):
    found = refusal(issuer, issuer.token(said_now(said), **head))
    assert (found.status, found.sentence[:len(why)] == why or why in found.sentence) == (422, True), found.sentence
    # what a claim should be is told for the audience alone, which everybody may ask for
    assert URL not in found.sentence and "\n" not in found.sentence


@pytest.mark.parametrize("at", [0, 1, 2])
def test_a_token_that_was_changed_is_refused(issuer, at):
    parts = issuer.token().split(".")
    head = json.dumps({"alg": "RS256", "typ": "JWT", "kid": "k2"}).encode()
    parts[at] = [text_of(head), text_of(json.dumps(claims(project_path="team/evil")).encode()), text_of(bytes(256))][at]
    assert refusal(issuer, ".".join(parts)).sentence.startswith(NOBODY)


@catches("server/lib/package_index/identity.py", 'leeway=LEEWAY, options={"require": REQUIRED})',
         'leeway=LEEWAY, options={"require": REQUIRED, "verify_signature": False})',
         also=["test_a_token_that_was_changed_is_refused",
               "server/test_trusted_publishing.py::test_the_key_of_another_signs_for_nobody",
               "server/test_trusted_publishing.py::test_claims_that_were_changed_are_refused"])
@catches("server/lib/package_index/identity.py", 'key = keys.get(head.get("kid", ""))',
         'key = key_in({"kid": "", **head["jwk"]}, issuer.algorithms) if "jwk" in head else '
         'keys.get(head.get("kid", ""))',
         also=["server/test_trusted_publishing.py::test_the_key_of_another_signs_for_nobody"])
def test_the_key_of_another_is_not_taken_though_the_token_brings_it_along(issuer, other):
    key = other.keys()["keys"][0]
    for head in ({}, {"jwk": key}, {"jku": "https://evil.example/keys"}, {"x5u": "https://evil.example/pem"},
                 {"x5c": ["MII="]}):
        assert refusal(issuer, other.token(**head)).sentence.startswith(NOBODY)


@catches("server/lib/package_index/identity.py",
         'if algorithm not in algorithms or not is_meant or not isinstance(made["kid"], str):',
         'if not isinstance(made["kid"], str):', also=["test_keys_that_are_none_to_check_by_are_passed_over"])
def test_an_algorithm_that_the_operator_left_out_is_refused(issuer):
    assert refusal(issuer, issuer.token(algorithm="ES256"), ("RS256",)).sentence.startswith(NOBODY)
    assert refusal(issuer, issuer.token(), ("ES256",)).sentence.startswith(NOBODY)


@pytest.mark.parametrize("token", [
    "", "a.b", "a.b.c.d", "a.b.c", "..", "office", "e30.e30.", "e30.e30.YQ==", "\u00e9.e30.YQ",
    f"{text_of(b'[]')}.e30.YQ", f"{text_of(b'[' * 5000)}.e30.YQ", f"e30.{'a' * 8192}.YQ",
    f"{text_of(b'null')}.e30.YQ", "e30 .e30.YQ", "e30.e30.YQ\n"])
def test_what_is_no_token_is_refused(issuer, token):
    assert refusal(issuer, token).sentence.startswith(NONE)


@pytest.mark.parametrize("body", [b"[]", b"{", b"null", b"\xff", b"[" * 4000, b'{"iss": ' + b"9" * 5000 + b"}"])
def test_claims_that_are_none_are_refused_though_the_issuer_signed_them(issuer, body):
    assert LACKS in refusal(issuer, issuer.token(body)).sentence


def test_a_token_as_large_as_it_may_be_is_taken(issuer):
    token = issuer.token(claims(more="a" * 5000))
    assert 7000 < len(token) <= 8192 and identity.claims_in(token, known(issuer), AUDIENCE)


def test_the_keys_of_rfc_7517():
    """One of the two encrypts, and is none to sign by."""
    found = identity.keys_in(RFC_7517, BOTH)
    assert {it: key.algorithm for it, key in found.items()} == {"2011-04-29": "RS256"}
    assert found["2011-04-29"].public.key_size == 2048
    assert {*identity.keys_in(RFC_7517.replace('"enc"', '"sig"'), BOTH)} == {"1", "2011-04-29"}


@catches("server/lib/package_index/identity.py", "BITS = range(2048, 8193)", "BITS = range(512, 8193)")
def test_keys_that_are_none_to_check_by_are_passed_over(issuer):
    rsa, curve = issuer.keys()["keys"]
    secret = {"kty": "oct", "kid": "k1", "alg": "HS256", "k": "c2VjcmV0"}
    odd = [secret, {**secret, "kid": "k2"}, {}, 7, None, "k1", [], {"kty": "RSA"}, {"kty": ["RSA"], "kid": "a"},
           {**rsa, "kid": 9}, {**rsa, "kid": "b", "alg": "PS256"}, {**rsa, "kid": "c", "use": "enc"},
           {**rsa, "kid": "d", "n": text_of(b"\xff" * 128)}, {**rsa, "kid": "e", "n": "!"},
           {**curve, "kid": "f", "crv": "P-384"}, {**curve, "kid": "g", "y": curve["x"]},
           {**curve, "kid": "h", "d": text_of(issuer.curve.private_numbers().private_value.to_bytes(32, "big"))}]
    found = identity.keys_in(json.dumps({"keys": [*odd, rsa, curve]}), BOTH)
    assert {it: key.algorithm for it, key in found.items()} == {"k1": "RS256", "k2": "ES256"}


@pytest.mark.parametrize("text", ["", "[]", "7", "{}", '{"keys": 7}', '{"keys": []}', '{"keys": [{}]}', "[" * 5000])
def test_a_set_without_a_key_is_refused(text):
    with pytest.raises(ValueError, match="set of keys|has no key"):
        identity.keys_in(text, BOTH)


def test_two_keys_of_one_id_are_refused(issuer, other):
    keys = {"keys": [*issuer.keys()["keys"], *other.keys()["keys"]]}
    with pytest.raises(ValueError, match="two keys have the id 'k1'"):
        identity.keys_in(json.dumps(keys), BOTH)


def test_the_file_of_the_tests_names_the_issuer_of_the_tests():
    assert f"url = {URL}\n" in FILE and f"audience = {AUDIENCE}\n" in FILE
