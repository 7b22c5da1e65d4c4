"""Names that a person typed, at their boundaries."""
from __future__ import annotations

import hashlib

import pytest
from indexctl.ends import WRONG, Stop
from indexctl.names import DIGEST, check_names, check_users, project_of, sha256


@pytest.mark.parametrize("name, is_name", [("f" * 128, True), ("f" * 129, False), ("-f", False), ("f-", False),
                                           ("a", True), ("", False), ("F.o_o-b", True), ("f\n", False)])
def test_a_name_has_128_bytes_at_most_with_letters_or_digits_at_both_ends(name, is_name):
    if is_name:
        check_names("first", name)
        return
    with pytest.raises(Stop, match="is not a project's name") as end:
        check_names("first", name)
    assert end.value.status == WRONG


@pytest.mark.parametrize("user, is_user", [("a" * 32, True), ("a" * 33, False), ("", False), ("Ann", False),
                                           ("a-b", False), ("0", True), ("ann\n", False)])
def test_a_user_id_has_32_bytes_at_most(user, is_user):
    if is_user:
        check_users("first", user)
        return
    with pytest.raises(Stop, match="is not a user id") as end:
        check_users("first", user)
    assert end.value.status == WRONG


def file_of(size):
    """A file name of so many bytes, whose project and version are within theirs."""
    tag = "t" * (size - len("frob-1.0-") - len("-n-a.whl"))
    return f"frob-1.0-{tag}-n-a.whl"


def test_a_file_name_has_255_bytes_at_most():
    assert len(file_of(255)) == 255 and project_of(file_of(255)) == "frob"
    with pytest.raises(Stop, match="is not the name of a wheel") as end:
        project_of(file_of(256))
    assert end.value.status == WRONG


@pytest.mark.parametrize("file, project", [
    ("Frob_Nest-1.0-py3-none-any.whl", "frob-nest"), ("frob.nest-1.0.tar.gz", "frob-nest"),
    ("frob-nest-1.0.tar.gz", "frob-nest"), ("a-1.tar.gz", "a")])
def test_the_project_of_a_file_is_in_its_normal_form(file, project):
    assert project_of(file) == project


@pytest.mark.parametrize("file", ["frob-1.0.zip", "frob.whl", "frob-1.0-py3-none-any.whlx", "", "frob-1.0.tar.gz\n"])
def test_what_is_no_file_name_is_refused(file):
    with pytest.raises(Stop):
        project_of(file)


@pytest.mark.parametrize("text, is_digest", [("0" * 64, True), ("0" * 63, False), ("0" * 65, False), ("G" * 64, False)])
def test_a_digest_has_64_digits(text, is_digest):
    assert bool(DIGEST.fullmatch(text)) == is_digest


def test_a_token_is_known_by_its_digest():
    assert sha256("\u00e9") == hashlib.sha256("\u00e9".encode()).hexdigest()
