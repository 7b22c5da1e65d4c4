"""Help, the manual page, what pages say to type, and the Pythons that run it."""
from __future__ import annotations

import ast
import functools
import glob
import os
import re
import shlex
import subprocess
import sys

import pytest
from indexctl.command_line import ALIASES
from indexctl.commands import COMMANDS
from support.indexctl.control import Control, assert_ends, environment
from support.needed import want_command
from support.places import SERVER, TOP
from support.planted import catches

pytestmark = pytest.mark.xdist_group("shell")
GROUPS = ("token", "profile", "user", "name", "owner", "file", "release", "quota", "quotas", "names", "who", "owned-by",
          "files", "releases", "status", "case", "upload", "page", "site", "replay", "import", "export",
          "completion", "man", "search", "help", "version", "inventory", "history", "doctor",
          *ALIASES)
MODULES = sorted(os.path.relpath(path, TOP) for room in (f"{TOP}/indexctl", f"{SERVER}/lib/package_index")
                 for path in glob.glob(f"{room}/**/*.py", recursive=True))
# what a system without locks and terminals of Unix has not
OF_UNIX = "fcntl", "termios", "pwd", "grp", "resource", "pty"


@pytest.fixture(scope="module")
def plain(shared_folder):
    """indexctl without an address."""
    return Control(shared_folder, None)


@pytest.fixture(scope="module")
def help_of(plain):
    """How the help of the command with these words ends. Each is asked for once."""
    return functools.cache(lambda *words: plain.run(*words, "--help"))


def commands_of(ended):
    """The commands that a help lists."""
    return re.findall(r"^    (\S+)(?: |$)", re.split("^(?:options|optional arguments|environment):", ended.stdout,
                                                     flags=re.M)[0], re.M)


@catches("indexctl/command_line.py", 'parts = [("environment", ENVIRONMENT), ("files", FILES), ("status", STATUSES)]',
         'parts = [("environment", FILES)]')
def test_help_says_where_settings_come_from_and_what_statuses_mean(help_of):
    assert_ends(help_of(), 0, "INDEX_TOKEN_FILE", "https_proxy", "~/.netrc", "130", "141", "(office)")


@catches("indexctl/main.py", "args = parsed(sys.argv[1:])",
         'args = parsed([it for it in sys.argv[1:] if it != "--help"] if len(sys.argv) > 2 else sys.argv[1:])',
         case="token",
         also=["test_each_group_has_help[user]", "test_each_group_has_help[name]", "test_each_group_has_help[owner]",
               "test_each_group_has_help[file]", "test_each_group_has_help[release]", "test_each_group_has_help[quota]",
               "test_each_group_has_help[quotas]", "test_each_group_has_help[names]",
               "test_each_group_has_help[profile]", "test_each_group_has_help[who]",
               "test_each_group_has_help[owned-by]", "test_each_group_has_help[case]",
               "test_each_group_has_help[upload]", "test_each_group_has_help[page]", "test_each_group_has_help[replay]",
               "test_each_group_has_help[completion]", "test_each_group_has_help[man]", "test_a_verb_has_help",
               "test_help_names_all_commands"])
@pytest.mark.parametrize("group", GROUPS)
def test_each_group_has_help(help_of, group):
    assert_ends(help_of(group), 0, f"usage: indexctl {group}")


@pytest.fixture(scope="module")
def paths(help_of):
    """The commands that help names."""
    found = []
    for group in commands_of(help_of()):
        found += [f"{group} {verb}" for verb in commands_of(help_of(group))] or [group]
    return found


def test_help_names_all_commands(paths):
    assert len(paths) == 51 and {it.split()[0] for it in paths} == set(GROUPS)


def test_a_verb_has_help(help_of):
    assert_ends(help_of("case", "transfer"), 0, "usage: indexctl case transfer", "--quiet", "--yes")


@pytest.fixture(scope="module")
def manual(plain):
    ended = plain.run("man")
    assert_ends(ended, 0)
    return ended.stdout


@catches("indexctl/shell.py", "lines += manual_of(it, made[it.path])",
         '''lines += manual_of(it, made[it.path]) if it.path != "user add" else ["'x"]''')
def test_the_manual_page_has_each_command(paths, manual):
    assert not [path for path in paths if f"indexctl {path}".replace("-", "\\-") not in manual]
    assert "\\fBindexctl info\\fR is the same." in manual


@catches("indexctl/shell.py", 'if "help" in given.settings:', 'if "help" in given.settings and given.is_option:')
def test_the_manual_page_says_what_a_word_may_be(manual):
    assert "profile, author or pages." in manual


@catches("indexctl/shell.py", 'lines += [f".SH {title}"]', 'lines += [f".NOTHING {title}"]')
def test_groff_reads_the_manual_page(manual):
    want_command("groff", "groff")
    page = subprocess.run(["groff", "-man", "-Tutf8", "-ww"], input=manual, stdout=subprocess.PIPE,
                          stderr=subprocess.PIPE, text=True, timeout=60)
    assert (page.returncode, page.stderr) == (0, "")
    assert "EXIT STATUS" in re.sub(r"\x1b\[\d*m|.\x08", "", page.stdout)


@catches("indexctl/main.py", "args = parsed(sys.argv[1:])",
         'args = parsed(["man"] if "nmaes" in sys.argv else sys.argv[1:])')
def test_a_command_that_is_none_is_refused(plain):
    assert_ends(plain.run("nmaes"), 2, "invalid choice")


def typed():
    """What the pages say to type, without its first word."""
    found = set()
    for path in glob.glob(f"{TOP}/docs/**/*.md", recursive=True):
        with open(path, encoding="utf-8") as page:
            found.update(it for pair in re.findall(r"`indexctl ([^`\n]+)`|^ *indexctl (.*)$", page.read(), re.M)
                         for it in pair if it)
    return sorted(found)


def test_pages_have_commands_that_are_there_with_options_that_they_take(help_of, looked):
    """A page names a command, or the begin of one."""
    texts = typed()
    looked(len(texts) > 30, texts)
    for text in texts:
        ended = help_of(*path_of(shlex.split(text)))
        looked(ended.returncode == 0, text, ended.stdout[-500:])
        looked(all(it in ended.stdout for it in re.findall(r" (--[a-z-]+)", text)), text, ended.stdout[-500:])


def path_of(words):
    """The words that name a command: the first, and the second if that is a verb's place."""
    is_alone = words[0] in {path for path, _, _ in COMMANDS} or len(words) == 1 or not re.fullmatch("[a-z]+", words[1])
    return tuple(words[:1 if is_alone else 2])


@catches("indexctl/standings.py", "with Progress(what, len(items)) as progress:",
         "with (Progress(what, len(items)) as progress, suppress(ZeroDivisionError)):", case="indexctl/standings.py")
@pytest.mark.parametrize("path", MODULES)
def test_a_module_has_the_syntax_of_python_3_8_and_less_than_400_lines(path):
    with open(f"{TOP}/{path}", encoding="utf-8") as kept:
        text = kept.read()
    ast.parse(text, feature_version=(3, 8))
    assert len(text.splitlines()) < 400


def test_it_is_imported_without_modules_of_unix(folder):
    """As on Windows. What can't be kept there is said: a record needs locks."""
    text = (f"import sys\nfor name in {OF_UNIX!r}: sys.modules[name] = None\n"
            "sys.argv = ['indexctl', 'name', 'claim', 'x']\nfrom indexctl.main import main\nsys.exit(main())\n")
    ended = subprocess.run([sys.executable, "-S", "-c", text], cwd=TOP, stdout=subprocess.PIPE,
                           stderr=subprocess.STDOUT, text=True, timeout=60,
                           env=environment(INDEX_URL="http://127.0.0.1:9", INDEX_TOKEN="x", HOME=folder,
                                           INDEX_RECORD=f"{folder}/record"))
    assert ended.returncode == 2 and "can't be kept on this system" in ended.stdout, ended.stdout
