"""Wrong bodies and their twins, as tools/try-edits makes them."""
import re
from pathlib import Path
from types import SimpleNamespace

import pytest
from edits import (MOST_IN_A_PART, Edit, changed_since, in_parts, made_together, name_of_impl, share_of,
                   written_in)
from support.needed import want_command
from support.places import TOP
from support.planted import catches
from support.running import new_repository, write_below

TEXTS = 'const A: &str = "a = 1";\nconst B: &str = "b = 2";\n'


def twin(folder, name, old, new):
    """The twin of a wrong body that names no function."""
    write_below(folder, f"must-fail/{name}.edit", f"file: src/texts.rt\nold: {old}\nnew: {old} OR 1\ntwin: {new}\n")
    kit = SimpleNamespace(rtlib=SimpleNamespace(text_of=lambda path: Path(path).read_text()),
                          read_edit=lambda path, folder: (None, None))
    made = Edit(kit, SimpleNamespace(folder=str(folder)), f"{folder}/must-fail/{name}.edit", is_twin=True)
    assert made.wrong is None and made.function == ""
    return made


def test_twins_that_name_no_function_are_made_together_if_they_fit(tmp_path):
    write_below(tmp_path, "src/texts.rt", TEXTS)
    first, second = twin(tmp_path, "first", "a = 1", "a == 1"), twin(tmp_path, "second", "b = 2", "b == 2")
    made = made_together(str(tmp_path), [first, second])
    assert made == {"src/texts.rt": TEXTS.replace(" = 1", " == 1").replace(" = 2", " == 2")}
    # both change the same text
    again = twin(tmp_path, "again", "a = 1", "a = (1)")
    assert made_together(str(tmp_path), [first, again]) is None


@catches("tools/lib/edits.py", "crate.name in whole or at", "at")
@catches("tools/lib/edits.py", "(share[0] - 1) % of", "0", case="2")
@pytest.mark.parametrize("turn", range(1, 5))
def test_a_share_has_every_fourth_crate_and_those_that_changed(turn):
    crates = [Path(name) for name in "abcdefghij"]
    of_all = dict.fromkeys(crates, ["an edit"])
    shares = [[it.name for it in share_of(of_all, (count, 4))] for count in range(turn, turn + 4)]
    assert sorted(sum(shares, [])) == [it.name for it in crates] and max(map(len, shares)) == 3
    assert [it.name for it in share_of(of_all, (turn, 4), {"e", "f"})] == sorted({*shares[0], "e", "f"})


@catches("tools/lib/edits.py", "-(-len(edits) // MOST_IN_A_PART)", "len(edits) // MOST_IN_A_PART + 1", case="40-2")
@catches("tools/lib/edits.py", "edits[at::count]", "edits[at::2]", case="75-4")
@pytest.mark.parametrize("edits, parts", [(1, 1), (40, 2), (41, 3), (75, 4)])
def test_each_edit_of_a_crate_is_in_one_part(edits, parts):
    made = in_parts([*range(edits)])
    assert sorted(sum(made, [])) == [*range(edits)] and len(made) == parts
    assert max(map(len, made)) <= MOST_IN_A_PART and min(map(len, made)) > 0


@catches("tools/lib/edits.py", "return names if ended.returncode else", "return")
@catches("tools/lib/edits.py", "except OSError:\n        return names", "except OSError:\n        return ()")
def test_the_crates_that_changed_are_told_and_all_where_git_can_not_tell(monkeypatch, tmp_path):
    want_command("git", "git")
    first, second = new_repository(tmp_path, ["crates/a/x", "crates/b/x"])
    assert changed_since(str(tmp_path), first, "abc") == {"b"} and changed_since(str(tmp_path), second, "abc") == set()
    write_below(tmp_path, "crates/a/x", "changed, and in no commit")
    assert changed_since(str(tmp_path), second, "abc") == {"a"}
    assert changed_since(str(tmp_path), "12345678", "abc") == "abc"
    monkeypatch.setenv("PATH", "/none")
    assert changed_since(str(tmp_path), second, "abc") == "abc"


@catches("tools/lib/edits.py", """f"Tuple{it[1].count(',') + 1} {it[1]}\"""", "it[1]", case="a-tuple")
@catches("tools/lib/edits.py", " if it not in parameters)", ")", case="a-trait")
@pytest.mark.parametrize("name, head", [
    ("LastPlaceTakerTuple2FileNameBytes", "impl Taker<(FileName, Bytes)> for LastPlace {"),
    ("SqlBooksVersion3Ends", "impl<S: Alter> Ends for SqlBooks<S, Version3> {"),
    ("SqlBooks+S+Version2", "impl<S: Alter> SqlBooks<S, Version2> {"), (None, "impl<S: Alter> Other<S> {")],
    ids=["a-tuple", "a-trait", "a-type", "another"])
def test_an_impl_has_the_name_that_the_prover_tells(name, head):
    assert name_of_impl(head, ["SqlBooks"]) == name


def test_each_wrong_body_is_of_a_function_that_the_prover_tells(looked):
    """One by another name is taken without its body, so that it is refused whatever was changed."""
    for path in Path(TOP).glob("crates/*/wrong-bodies/*.edit"):
        name, file = re.search(r"^fn: (\S+)\nfile: src/(\S+)$", path.read_text(), re.M).groups()
        names = [it.replace(".", "::") for it, _ in written_in(file, (path.parents[1] / "src" / file).read_text())]
        alike = [it for it in names if it.rpartition("::")[2] == name.rpartition("::")[2]]
        looked(name in alike or not alike, path.name, name, alike)
