"""indexctl on a terminal of 60 columns and of 120, and where there is none."""
from __future__ import annotations

import re
import time

import pytest
from indexctl.terminal import printable
from support.indexctl.control import DAY, Control, assert_ends, filled, line, upload_line, user_lines
from support.indexctl.terminal import COLUMNS, lines_of, on_terminal
from support.planted import catches
from support.serving import Index

pytestmark = pytest.mark.xdist_group("terminal")
LONG = "a-name-of-some-length-that-no-table-holds"
WHEEL = "wide_frob-1.0-cp312-cp312-manylinux_2_17_x86_64.manylinux2014_x86_64.whl"
# each listing, with what of its JSON it shows
LISTINGS = {
    "files wide-frob": "file release python yanked sha256", "releases wide-frob": "release yanked files",
    "status wide-frob": "name state owners", "who wide-frob mine": "name state owners",
    "owned-by ann": "name owners case",
    "names": "name owners", "quotas": "name owners", "quota show wide-frob": "name owners",
    "case list": "name candidate owners", "case show mine": "name kind candidate owners contact work why",
}


def lines_before(now):
    yield from user_lines("ann", "bob")
    for at in range(12):
        yield line(now, "ann", "claim", name=f"{LONG}-{at}")
        yield line(now, "ann", "add_owner", name=f"{LONG}-{at}", user="bob")
    for name in ("mine", "no", "yes"):
        yield line(now - DAY, "office", "claim", name=name)
    yield line(now, "bob", "open_case", name="mine", kind="reuse", contact="c" * 500, work="right\u202eleft",
               why="d e " * 100)
    yield line(now, "ann", "claim", name="wide-frob")
    for file in (WHEEL, "wide_frob-0.9.tar.gz"):
        yield upload_line(now, "ann", file, 5)
    reason = f"loses data: see https://a.example/{'x' * 90}"
    yield line(now, "ann", "yank", name="wide-frob", release="1.0", reason=reason)


@pytest.fixture(scope="module")
def by(program, shared_folder):
    path = filled(program, f"{shared_folder}/terminal.db", lines_before(int(time.time())))
    with Index(program, path=path) as index:
        yield Control(shared_folder, f"http://127.0.0.1:{index.port}")


@catches("indexctl/terminal.py", "if sys.stdout.isatty() and sum(widths) + 2 * (len(widths) - 1) > most:",
         "if not most:")
def test_a_table_that_is_too_wide_is_printed_in_blocks(by):
    status, seen = on_terminal(by, "names")
    lines = lines_of(seen)
    assert status == 0 and max(map(len, lines)) <= COLUMNS and f"{LONG}-11" in seen, lines


@catches("indexctl/terminal.py",
         "lines = textwrap.wrap(text, max(20, most - wide - 1), break_long_words=False, break_on_hyphens=False)",
         "lines = [text]")
def test_a_long_text_is_wrapped(by):
    status, seen = on_terminal(by, "case", "show", "mine")
    # but for a word that is too long for a line
    lines = [it for it in lines_of(seen) if "ccc" not in it]
    assert status == 0 and max(map(len, lines)) <= COLUMNS and "d e d e" in seen, seen


def words_of(rows, keys):
    """Each word of the texts at these keys."""
    found = [row[key] for row in (rows if isinstance(rows, list) else [rows]) for key in keys]
    texts = [text for it in found for text in (it if isinstance(it, list) else [it or ""])]
    return {printable(word) for it in texts for word in it.split()}


@catches("indexctl/terminal.py", "break_long_words=False, break_on_hyphens=False)", "break_on_hyphens=False)",
         also=["indexctl/test_unit_terminal.py::test_a_name_is_not_torn_by_its_hyphen_or_for_its_length"])
@pytest.mark.parametrize("columns", [60, 120])
@pytest.mark.parametrize("words", LISTINGS)
def test_a_listing_breaks_no_name_and_cuts_nothing(by, columns, words):
    """What is too long for a line stands alone in it, and the terminal itself goes on in the next."""
    awaited = words_of(by.rows(*words.split()), LISTINGS[words].split())
    status, seen = on_terminal(by, *words.split(), columns=columns)
    assert status == 0 and len(awaited) > 1
    lines = lines_of(seen)
    there = {word.rstrip(",") for it in lines for word in it.split()}
    assert awaited - there == set()
    assert not [it for it in lines if len(it) > columns and len(it.split()) > 2]


@catches("indexctl/command_line.py",
         "return max(LEAST_COLUMNS, min(MOST_COLUMNS, shutil.get_terminal_size().columns - 2))", "return MOST_COLUMNS",
         also=["indexctl/test_unit_shell.py::test_help_says_what_stands_where"])
@pytest.mark.parametrize("words", ["", "upload", "profile", "release yank"])
@pytest.mark.parametrize("columns", [60, 120])
def test_help_fits_the_terminal(by, columns, words):
    status, seen = on_terminal(by, *words.split(), "--help", columns=columns)
    widest = max(map(len, lines_of(seen)))
    assert status == 0 and columns - 30 < widest <= columns, seen


@catches("indexctl/terminal.py", "break_long_words=False, break_on_hyphens=False)",
         'break_long_words=False, break_on_hyphens=False) or [""]')
def test_what_is_not_so_has_no_line(by):
    """`yanked` with nothing behind it could be read as a yank."""
    _, seen = on_terminal(by, "files", "wide-frob")
    assert [it.split()[0] for it in lines_of(seen) if it].count("yanked") == 1, seen


@catches("indexctl/terminal.py",
         r'return text if text.isprintable() else "".join(it if it.isprintable() else f"\\u{ord(it):04x}" for '
         "it in text)", "return text")
def test_a_text_does_not_turn_the_line(by):
    _, seen = on_terminal(by, "case", "show", "mine")
    assert "\\u202e" in seen and "\u202e" not in seen, seen


@catches("indexctl/terminal.py",
         'is_plain = not stream.isatty() or os.environ.get("NO_COLOR") or os.environ.get("TERM") == "dumb"',
         'is_plain = stream.isatty() and not os.environ.get("NO_COLOR")',
         also=["test_a_terminal_without_colours_gets_none[NO_COLOR]", "test_no_terminal_has_no_colours"])
def test_a_terminal_has_colours(by):
    status, seen = on_terminal(by, "quotas")
    assert status == 0 and "\x1b[1m" in seen, seen


@pytest.mark.parametrize("setting", [{"NO_COLOR": "1"}, {"TERM": "dumb"}], ids=["NO_COLOR", "dumb"])
def test_a_terminal_without_colours_gets_none(by, setting):
    status, seen = on_terminal(by, "quotas", **setting)
    assert status == 0 and not re.search(r"\x1b\[[0-9;]*m", seen), seen


@catches("indexctl/terminal.py", "if self.is_watched:", "if not self.is_watched:",
         also=["test_no_terminal_has_no_progress"])
def test_a_terminal_shows_how_far_a_walk_has_come(by):
    held = len(by.rows("names"))
    _, seen = on_terminal(by, "quotas")
    assert held > 12 and "names: " in seen and f" of {held}, " in seen, seen


def test_no_terminal_has_no_colours(by):
    piped = by.run("quotas")
    assert piped.returncode == 0 and "\x1b" not in piped.stdout and "\r" not in piped.stdout, piped.stdout


def test_no_terminal_has_no_progress(by):
    assert by.run("quotas").stderr == ""


@pytest.mark.parametrize("types", ["no\n", "y\n", "\n", "\x04"], ids=["no", "y", "nothing", "end"])
def test_an_answer_that_is_not_yes_does_nothing(by, types):
    status, seen = on_terminal(by, "name", "prohibit", "no", types=types)
    assert status == 2 and "Nothing was done" in seen, seen
    assert_ends(by.run("who", "no"), 0, "held")


def test_yes_does_it(by):
    status, seen = on_terminal(by, "name", "prohibit", "yes", types="yes\n")
    assert status == 0 and "accepted" in seen, seen
    assert_ends(by.run("who", "yes"), 0, "prohibited")
