"""Names that look alike, by a definition that looks at each pair."""
from __future__ import annotations

import itertools
import string
import time
import tracemalloc

import pytest
from hypothesis import given, settings
from hypothesis import strategies as st
from indexctl.lookalikes import FEWEST_LETTERS, TOGETHER, alike, one_letter_apart, texts_of
from indexctl.near import is_near
from package_index.names import normal
from support.planted import catches

LETTERS = string.ascii_lowercase


def groups(*names):
    """The groups of these names, of which each has an owner of its own."""
    return alike({name: [f"of {name}"] for name in names})


@catches("indexctl/lookalikes.py", 'return text, text if text.isalpha() else DIGITS.sub("", text) or text',
         "return text, text")
@catches("indexctl/lookalikes.py", "if turned != text and turned in texts:", "if turned != text and not texts:",
         also=["test_the_groups_are_those_of_all_pairs"])
@pytest.mark.parametrize("names", [
    ("amber-client", "amberclient"), ("frob", "frob2"), ("frob-2-x", "frobx"), ("amber-cache", "amber-cahce"),
    ("tool-zoe", "tool-zoes"), ("tool-zoe", "toll-zoe"), ("tool-zoe", "ool-zoe"), ("h5", "h-6"), ("11", "1-1"),
    ("amber-client", "amberclients2"), ("frob", "frog"),
    ("frob", "fr0b"), ("moss", "m0ss"), ("lib-1l", "lib-11")], ids="/".join)
def test_names_equal_but_for_signs_or_one_letter_apart_look_alike(names):
    assert groups(*names) == [sorted(names)] == groups(*reversed(names))


@pytest.mark.parametrize("names", [
    ("amber", "copper"), ("frob", "grab"), ("abcd", "bacd1x"), ("frob", "frobbed"), ("abc", "abd"), ("abc", "abcd"),
    ("1", "2"), ("ab", "a")], ids="/".join)
def test_other_names_do_not(names):
    assert groups(*names) == []


def test_a_chain_of_names_is_one_group():
    assert groups("frob", "frog", "zzzz", "frogs", "fro-gs", "zzzzyy") == [["fro-gs", "frob", "frog", "frogs"]]


def test_groups_come_in_the_order_of_their_names():
    names = "zulu-x", "frob", "amber-cache", "zulux", "frog", "amber-cahce"
    assert groups(*names) == [["amber-cache", "amber-cahce"], ["frob", "frog"], ["zulu-x", "zulux"]]


@catches("indexctl/lookalikes.py", "if len({frozenset(owners[it]) for it in names}) > 1)",
         "if not frozenset.intersection(*(frozenset(owners[it]) for it in names)))")
def test_names_of_the_same_owners_are_left_out():
    assert alike({"frob": ["ann", "bob"], "frob2": ["bob", "ann"]}) == []
    # whoever has taken a name alike may add the owner of the other to it
    assert alike({"frob": ["ann"], "frob2": ["eve", "ann"]}) == [["frob", "frob2"]]


def test_the_groups_are_those_of_all_pairs(chance, looked):
    """Texts of few letters, so that many are near to each other."""
    for _ in range(200):
        names = {"".join(chance.choices("ab1-c", k=chance.randint(1, 7))).strip("-") for _ in range(8)} - {""}
        group = {name: {name} for name in names}
        for one, other in itertools.permutations(names, 2):
            if any(a == b or (min(len(a), len(b)) >= FEWEST_LETTERS and is_near(a, b))
                   for a, b in itertools.product(texts_of(one), texts_of(other))):
                joined = group[one] | group[other]
                group.update({name: joined for name in joined})
        wanted = {frozenset(it) for it in group.values() if len(it) > 1}
        looked({frozenset(it) for it in groups(*names)} == wanted, names, wanted)


def all_pairs(texts):
    """The pairs that differ by one letter, by cutting each letter off each text."""
    for length in {len(it) for it in texts if len(it) >= FEWEST_LETTERS}:
        group = [it for it in texts if len(it) == length]
        for at in range(length):
            first = {}
            for text in group:
                rest, turned = text[:at] + text[at + 1:], text[:at] + text[at:at + 2][::-1] + text[at + 2:]
                near = first.setdefault(rest, text), turned, *([rest] if length > FEWEST_LETTERS else [])
                yield from ((text, it) for it in near if it != text and it in texts)


def joined(pairs):
    """The texts that are joined by pairs, each with all others."""
    group = {}
    for one, other in pairs:
        whole = group.get(one, {one}) | group.get(other, {other})
        group.update({it: whole for it in whole})
    return {frozenset(it) for it in group.values()}


@settings(max_examples=300)
@given(st.sets(st.text("ab1", min_size=1, max_size=14), max_size=40)
       | st.sets(st.text("abcdefg2", min_size=1, max_size=30)))
def test_texts_that_share_parts_are_joined_as_all_are(texts):
    assert joined(one_letter_apart(texts)) == joined(all_pairs(texts))


@catches("indexctl/lookalikes.py", "near = shared(group, lengths.get(length - 1, []), start, end)",
         "near = shared(group, [], start, end)")
@catches("indexctl/lookalikes.py", "hash(text[:start] + text[end + 1:])", "hash(text[:start] + text[end:])",
         ("indexctl/lookalikes.py", "hash(text[:start] + text[end:]) % SLOTS] = 1",
          "hash(text[:start] + text[end - 1:]) % SLOTS] = 1"))
def test_a_slip_at_each_place_of_each_length_joins(chance, looked):
    """Of texts that share nothing else, at the boundaries of parts too."""
    for length in range(FEWEST_LETTERS, 6 * TOGETHER):
        for at in range(length):
            text = "".join(chance.choices(LETTERS, k=length))
            head, tail = text[:at], text[at + 1:]
            slips = [f"{head}1{tail}", f"{head}1{text[at:]}", f"{head}{tail[:1]}{text[at]}{tail[1:]}"]
            slips += [f"{head}{tail}"] if length > FEWEST_LETTERS else []
            for slip in slips:
                others = {"".join(chance.choices(LETTERS, k=length)) for _ in range(5)}
                looked(joined(one_letter_apart({text, slip, *others})) == joined(all_pairs({text, slip, *others})),
                       text, slip, others)
                looked(slip == text or joined(one_letter_apart({text, slip})) == {frozenset({text, slip})}, text, slip)


@given(st.text("abZ19-_.", max_size=20))
def test_a_name_is_compared_by_its_normal_form(name):
    text = normal(name).replace("-", "")
    assert texts_of(name) == (text, "".join(it for it in text if it not in string.digits) or text)


def test_ten_thousand_names_take_little_time(looked):
    """Also the worst: each is one letter off hundreds of others. To look at each pair takes minutes."""
    worst = {f"{'a' * at}{one}{other}{'a' * (20 - at)}" for at in range(21) for one in LETTERS for other in LETTERS}
    worst = sorted(worst)[:10_000]
    for names in (worst, [f"name-{at:05}" for at in range(10_000)]):
        begun = time.process_time()
        found = groups(*names)
        took = time.process_time() - begun
        looked(len(found) == 1 and len(found[0]) == 10_000, len(found))
        looked(took < 10, f"{took:.2f} s")


def test_ten_thousand_names_take_little_memory(looked):
    """What is cut off each name, kept for all places at once, takes 40 MB for them and 400 MB for 100,000."""
    owners = {f"{LETTERS[at % 26] * (at % 7)}name-{at * 7919:09}": ["ann"] for at in range(10_000)}
    tracemalloc.start()
    alike(owners)
    peak = tracemalloc.get_traced_memory()[1]
    tracemalloc.stop()
    looked(peak < 6_000_000, f"{peak:,} bytes")
