"""Slips of people, told before the index is asked, with what was perhaps meant."""
from __future__ import annotations

import json

import pytest
from indexctl.about import VERSION
from indexctl.command_line import parsed
from indexctl.ends import WRONG, Stop
from support.indexctl.rows import held
from support.planted import catches


@catches("indexctl/command_line.py", "near = MEANT.get(found[1], near) if found and not noun else near", 'near = ""')
@catches("indexctl/command_line.py", "near = MEANT.get(found[1], near) if found and not noun else near", "pass")
@pytest.mark.parametrize("words, said", [
    ("claim x", "`indexctl name claim`?"), ("yank x 1", "`indexctl release yank`?"),
    ("nam claim x", "`indexctl name`?"), ("nmaes", "`indexctl names`?"),
    ("file list x", "`indexctl files`?"), ("quota list", "`indexctl quotas`?"),
    ("release yakn x 1", "`indexctl release yank`?"), ("usr add", "`indexctl user`?"),
    ("owner list x", "`indexctl case list`?"), ("file show x", "`indexctl files`?"), ("show x", "`indexctl status`?"),
    ("list", "`indexctl names`, `indexctl files` or `indexctl releases`?"), ("publish x", "`indexctl upload`?"),
    ("login", "`indexctl profile --help`, which says where your token stands?"),
    ("download x", "`python3 -m pip download`?"), ("install x", "`python3 -m pip install`?")])
def test_a_command_that_is_none_is_answered_by_one_that_is(capsys, words, said):
    with pytest.raises(SystemExit) as end:
        parsed(words.split())
    told = capsys.readouterr().err
    assert end.value.code == 2 and "invalid choice" in told and told.endswith(f" Did you mean {said}\n"), told


@catches("indexctl/command_line.py", "found.parser.error(", "self.error(")
@pytest.mark.parametrize("words, said", [
    ("upload x --skip-existing", "--skip-existing. A file that is there with the same bytes is no error: leave it "
                                 "out."),
    ("upload x --repository-url=https://x/legacy/", "INDEX_URL names the index."),
    ("upload --repository x y", "`--profile NAME` names another index."), ("upload --nothing x", "--nothing"),
    ("upload -u ann -p x", "a token. The token stands in INDEX_TOKEN, or in the file that the profile names.")])
def test_an_option_that_is_none_is_told_by_the_command_s_own_usage(capsys, words, said):
    with pytest.raises(SystemExit) as end:
        parsed(words.split())
    told = capsys.readouterr().err
    assert end.value.code == 2 and told.startswith("usage: indexctl upload [-h]") and told.endswith(f"{said}\n"), told


@catches("indexctl/command_line.py", "if found.plural and not any(", "if False and not any(")
@pytest.mark.parametrize("words, found", [
    ("release yank frob --reason x 1.0", {"name": "frob", "releases": ["1.0"]}),
    ("files frob --json spam ham", {"names": ["frob", "spam", "ham"]})])
def test_further_words_may_stand_behind_an_option(words, found):
    args = vars(parsed(words.split()))
    assert {key: args[key] for key in found} == found


@catches("indexctl/command_line.py", "elif rest:", "elif False:")
@pytest.mark.parametrize("words", ["names frob", "status a b", "whoami x", "owner add a b --x", "help --x"])
def test_a_word_too_much_is_refused(capsys, words):
    with pytest.raises(SystemExit) as end:
        parsed(words.split())
    assert end.value.code == 2 and "unrecognized arguments" in capsys.readouterr().err


@catches("indexctl/command_line.py", 'ALIASES = {"info": "status", "whoami": "token check"}',
         'ALIASES = {"info": "who", "whoami": "token new"}',
         ("indexctl/completion.py", "after[alias] = after[path]", "pass"),
         also=["indexctl/test_completion.py::test_a_shell_completes_what_the_index_has[bash-an_alias]"])
@pytest.mark.parametrize("alias, path", [("info frob", "status frob"), ("whoami", "token check"),
                                         ("whoami --json", "token check --json")])
def test_a_word_that_people_know_is_the_command(alias, path):
    def said(words):
        found = vars(parsed(words.split()))
        return {key: found[key] for key in found if key not in ("noun", "verb", "parser")}
    assert said(alias) == said(path)


@pytest.mark.parametrize("words, usage", [("help release yank", "indexctl release yank [-h]"),
                                          ("help case", "indexctl case [-h]"), ("help", "indexctl [-h] [--version]"),
                                          ("help whoami", "indexctl whoami [-h]")])
def test_help_is_a_word_too(run, capsys, words, usage):
    with pytest.raises(SystemExit) as end:
        run(*words.split())
    assert end.value.code == 0 and capsys.readouterr().out.startswith(f"usage: {usage}")


def test_the_version_is_a_word_too(run, capsys):
    run("version")
    run("version", "--json")
    assert capsys.readouterr().out == f'indexctl {VERSION}\n{{"version": "{VERSION}"}}\n'


@catches("indexctl/commands/listings.py", "if all(word in normal(it) for word in words)]",
         "if any(word in normal(it) for word in words)]")
@pytest.mark.parametrize("words, found", [
    ("fr", ["Frob", "frost-bite"]), ("FROST_B", ["frost-bite"]), ("bite fro", ["frost-bite"]), ("x", [])])
def test_a_search_lists_the_names_that_have_each_word(run, capsys, words, found):
    run.names = [held("frob", shown="Frob"), held("frost-bite"), held("spam")]
    run.put("listed_names", lambda _: ["frob", "frost-bite", "spam"])
    run.put("standings_of", lambda _, names: (it for it in run.names if it.name in names))
    assert run("search", *words.split(), "--json") == 0
    assert [row["name"] for row in json.loads(capsys.readouterr().out)] == found


@catches("indexctl/commands/listings.py", '''note(f"No name has that.{did_you_mean('-'.join(words), known)}")''',
         'note("No name has that.")')
def test_a_search_for_a_misspelt_name_finds_what_was_meant(run, capsys):
    run.put("listed_names", lambda _: ["frob", "spam"])
    run.put("standings_of", lambda _, names: iter(names))
    assert run("search", "forb") == 0
    assert capsys.readouterr().err == "No name has that. Did you mean `frob`?\nnone\n"


@pytest.mark.parametrize("words", ["strawberry", "case attempt x nobody", "who", "user frobnicate x"])
def test_what_is_near_to_nothing_gets_no_question(capsys, words):
    with pytest.raises(SystemExit):
        parsed(words.split())
    assert "Did you mean" not in capsys.readouterr().err


@catches("indexctl/command_line.py", "add_common(common, argparse.SUPPRESS, argparse.SUPPRESS)",
         "add_common(common, None, 6)")
@pytest.mark.parametrize("words", ["--profile p --again 2 who x", "who --profile p x --again 2",
                                   "--profile other --again 5 who x --profile p --again 2"])
def test_the_options_of_all_commands_stand_before_or_behind(words):
    args = parsed(words.split())
    assert (args.profile, args.again) == ("p", 2)


def told(run, *words):
    with pytest.raises(Stop) as end:
        run(*words)
    assert end.value.status == WRONG and not run.desk.asked
    return str(end.value)


@catches("indexctl/commands/listings.py", "    size_of(args.size)", "    args.size.strip()")
@pytest.mark.parametrize("size", ["5GB5", "-1", "+", "x"])
def test_a_slip_in_a_size_is_told_before_the_index_is_asked(run, size):
    run.put("find_standing", lambda *_: pytest.fail("asked"))
    assert "is not a size" in told(run, "quota", "set", "frob", size)


@catches("indexctl/names.py", "number & 0xFFFE == 0xFFFE or 0xFDD0 <= number <= 0xFDEF", "number == 0xFFFE")
@catches("indexctl/commands/releases.py", "if size > MOST_TEXT:", "if size > MOST_TEXT + 1:")
@catches("indexctl/commands/releases.py", 'if any(unicodedata.category(it) == "Cc" for it in text):',
         'if any(unicodedata.category(it) == "Cs" for it in text):')
@catches("indexctl/names.py", "if not is_text(text):", "if not texts:",
         also=["test_bytes_of_a_case_that_are_no_text_are_told"])
@pytest.mark.parametrize("reason, said", [("x" * 513, "512 bytes at most, and this one has 513"),
                                          ("\u00e9" * 257, "has 514"), ("a\nb", "is one line"), ("a\tb", "is one line"),
                                          ("a\x85", "is one line"), ("gr\udcf6", "no text in the coding of your"),
                                          ("a\ufffe", "no noncharacter"), ("\ufdd0", "no noncharacter"),
                                          ("\ufdef", "no noncharacter"), ("\U0010ffff", "no noncharacter")])
def test_a_reason_that_the_index_would_refuse_is_told(run, reason, said):
    assert said in told(run, "release", "yank", "frob", "1.0", "--reason", reason)


@pytest.mark.parametrize("reason", ["x" * 512, "\u00e9" * 256, "", "loses <data> \U0001f4a5", "\ufdcf\ufdf0\ufffd"])
def test_any_other_reason_goes_out(run, reason):
    assert run.asked("release", "yank", "frob", "1.0", "--reason", reason)[0]["reason"] == reason


RELEASES = {
    "frob 1.0": [("frob", "1.0")], "frob 1.0 1.1": [("frob", "1.0"), ("frob", "1.1")],
    "frob==1.0": [("frob", "1.0")], "frob==1.0 spam==2!1": [("frob", "1.0"), ("spam", "2!1")]}


@pytest.mark.parametrize("verb", ["yank", "unyank"])
@pytest.mark.parametrize("words", RELEASES)
def test_releases_are_named_as_people_name_them(run, verb, words):
    rows = run.asked("release", verb, *words.split())
    assert [(row["do"], row["name"], row["release"]) for row in rows] == [(verb, *it) for it in RELEASES[words]]


def test_gaps_about_what_names_a_release_are_passed_over(run):
    rows = run.asked("release", "yank", "frob == 1.0", " spam==2 ")
    assert [(row["name"], row["release"]) for row in rows] == [("frob", "1.0"), ("spam", "2")]


@catches("indexctl/commands/releases.py", "if not pairs or not all(", "if not pairs and all(")
@pytest.mark.parametrize("words", ["frob", "frob==", "frob==1.0 spam", "frob spam==1.0", "frob==1.0 1.1", "frob===1.0"])
@pytest.mark.parametrize("verb", ["yank", "unyank", "delete"])
def test_a_release_that_is_not_named_is_told(run, verb, words):
    assert "Name a release: `frob 1.0`" in told(run, "release", verb, *words.split())


@catches("indexctl/names.py", r'return re.split(r"[/\\]", text)[-1]', "return text")
@pytest.mark.parametrize("path", ["dist/frob-1.0.tar.gz", "C:\\dist\\frob-1.0.tar.gz", "./frob-1.0.tar.gz",
                                  "https://packages.example/files/frob/frob-1.0.tar.gz"])
@pytest.mark.parametrize("verb, do", [("delete", "delete"), ("ban", "ban_file")])
def test_a_file_may_be_named_by_its_path(run, verb, do, path):
    assert run.asked("file", verb, path) == [{"do": do, "file": "frob-1.0.tar.gz"}]


@pytest.mark.parametrize("option", ["--contact", "--work", "--why"])
def test_bytes_of_a_case_that_are_no_text_are_told(run, option):
    words = {"--contact": "c", "--work": "w", "--why": "y", option: "gr\udcf6"}
    said = told(run, "case", "open", "frob", "--kind", "reuse", *(it for pair in words.items() for it in pair))
    assert "no text in the coding of your locale" in said


@catches("indexctl/uploads.py", "if not os.path.exists(path):", "if not path:")
@pytest.mark.parametrize("path", ["dits/", "dits", "frob-1.0.tar.gz", "none.whl"])
def test_what_is_not_there_is_told_as_such(run, tmp_path, path):
    assert "there is no such file or folder" in told(run, "upload", f"{tmp_path}/{path}")


@catches("indexctl/commands/names.py", "others = [it for it in find_standing(index, name).owners if it != user]",
         "others = [it for it in find_standing(index, name).owners if it]")
def test_who_stays_is_shown_before_an_owner_is_taken_off(run):
    run.names = [held("frob", owners=["ann", "bob", "eve"]), held("spam", owners=["ann"])]
    assert run("owner", "remove", "ann", "frob", "spam") == 0
    assert run.shown == ["frob will be owned by bob, eve, and no longer by ann. "
                         "spam will be owned by nobody else, and no longer by ann."]
    assert [row["do"] for row in run.desk.asked] == ["remove_owner"] * 2


@catches("indexctl/commands/users.py", "if not desk.status():", "if desk.status():")
def test_what_stops_by_another_token_is_named(run, capsys):
    assert run("user", "rotate", "cibuild") == 0
    assert "such as a pipeline of cibuild" in capsys.readouterr().err
    run.desk.refuses = ("set_token",)
    assert run("user", "rotate", "cibuild") == 1
    assert "pipeline" not in capsys.readouterr().err
