"""Texts of the manual page and of help."""
from __future__ import annotations

import argparse
import json
import re
import subprocess
import sys

import pytest
from indexctl import command_line, shell
from indexctl.command_line import Command, argument, load, parsed, parsers
from indexctl.commands import COMMANDS
from support.places import TOP

# the modules that a run with these words has loaded
LOADS = """import atexit, json, sys
atexit.register(lambda: print(json.dumps(sorted(sys.modules)), file=sys.stderr))
from indexctl.main import main
main()"""
# each takes as long as the rest of a start, or longer
SLOW = {"ssl", "http.client", "urllib.request", "email", "dataclasses", "zipfile", "tarfile", "asyncio"}


@pytest.mark.parametrize("text, made", [
    ("a-b", "a\\-b"), (".a", "\\&.a"), ("'a", "\\&'a"), ("a \n b", "a b"), ("a\\b", "a\\eb"),
    ("say `x y` now", "say \\fBx y\\fR now"), ("", "")])
def test_a_text_is_escaped_for_a_manual_page(text, made):
    assert shell.roff(text) == made


def test_paragraphs_are_filled_and_examples_stand_as_they_are():
    assert shell.roff_body("a\nb\n\n[x]\ny\n\n    c\n    d\n\ne") == [
        ".PP", "a b", ".PP", ".nf", "[x]", "y", ".fi", ".PP", ".nf", "c", "d", ".fi", ".PP", "e"]
    assert shell.roff_body("") == []


def command(*arguments):
    def run(_):
        """More of it."""
    return Command("noun verb", "does this", arguments, run)


def test_the_manual_of_a_command_has_its_usage_and_each_argument_with_help():
    made = command(argument("name", metavar="NAME"), argument("means", metavar="MEANS", help="how it was"),
                   argument("-q", "--quiet", action="store_true", help="says nothing"))
    parser = argparse.ArgumentParser(prog="indexctl noun verb")
    assert shell.manual_of(made, parser) == [
        ".SS", "indexctl noun verb", "Does this.", ".PP", "More of it.", ".TP", ".B MEANS", "how it was.", ".TP",
        ".B \\-\\-quiet", "says nothing."]


def test_the_manual_has_its_sections_in_the_order_of_man_pages(monkeypatch):
    told = []
    monkeypatch.setattr(shell, "put", told.append)
    shell.man(argparse.Namespace())
    assert re.findall(r"^\.SH (.*)$", told[0], re.M) == [
        "NAME", "SYNOPSIS", "DESCRIPTION", "OPTIONS", "COMMANDS", "ENVIRONMENT", "FILES", "EXIT STATUS"]


def test_a_summary_becomes_a_sentence():
    assert command_line.sentence("does this") == "Does this."


def test_each_command_is_parsed_with_its_function_and_the_common_defaults():
    top, made = parsers(load())
    assert [*made] == [path for path, _, _ in COMMANDS]
    args = top.parse_args(["case", "transfer", "frob", "--quiet"])
    assert (args.names, args.quiet, args.yes, args.json, args.again, args.profile) == (["frob"], True, False, False, 6,
                                                                                       None)
    assert args.function.__name__ == "case_transfer"
    args = top.parse_args(["names", "--again", "2", "--profile", "x", "--json"])
    # a command without --yes has not said it
    assert (args.again, args.profile, args.json, args.yes) == (2, "x", True, False)


@pytest.mark.parametrize("words", [[], ["case"], ["case", "open", "x"], ["case", "transfer", "x"], ["nmaes"],
                                   ["replay", "x"], ["user", "add"], ["quota", "set", "x"],
                                   ["case", "open", "x", "--kind", "y", "--contact", "a", "--work", "b", "--why", "c"]])
def test_a_line_that_lacks_something_is_refused(words, capsys):
    with pytest.raises(SystemExit) as end:
        parsed(words)
    assert end.value.code == 2 and "usage: indexctl" in capsys.readouterr().err


def test_a_terminal_may_have_one_column(monkeypatch):
    monkeypatch.setenv("COLUMNS", "1")
    assert "usage: indexctl" in parsers(())[0].format_help()


def test_help_tears_no_command_that_a_person_copies(monkeypatch):
    monkeypatch.setenv("COLUMNS", "40")
    text = command_line.wrapped(f"{'word ' * 6}`indexctl release delete frob --older-than 30`")
    assert "--older-than" in text and max(map(len, text.splitlines())) <= 38


@pytest.mark.parametrize("columns, most", [(60, 58), (200, 100)])
def test_help_says_what_stands_where(monkeypatch, columns, most):
    monkeypatch.setenv("COLUMNS", str(columns))
    text = command_line.epilog()
    assert re.findall(r"^(\S+):$", text, re.M) == ["environment", "files", "status"]
    assert most - 10 < max(map(len, text.splitlines())) <= most
    assert "\n  INDEX_URL               the address of the index" in text


@pytest.mark.parametrize("words, own, slow", [
    ("--help", [], set()), ("--version", [], set()), ("case --help", [], set()), ("version", ["helps"], set()),
    ("token new", ["tokens"], {"dataclasses"}), ("profile", ["tokens"], {"dataclasses"})])
def test_a_start_loads_the_command_that_is_called_and_what_that_needs(words, own, slow, tmp_path):
    ended = subprocess.run([sys.executable, "-S", "-B", "-c", LOADS, *words.split()], cwd=TOP, text=True, timeout=60,
                           env={"HOME": str(tmp_path), "PYTHONPATH": TOP}, check=True, stdout=subprocess.PIPE,
                           stderr=subprocess.PIPE)
    loaded = json.loads(ended.stderr.splitlines()[-1])
    begin = "indexctl.commands."
    assert [it[len(begin):] for it in loaded if it.startswith(begin)] == sorted([*own, *["arguments"] * bool(own)])
    assert SLOW & set(loaded) == slow
