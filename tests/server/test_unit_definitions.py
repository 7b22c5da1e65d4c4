"""What tools/list-specs and tools/check-style read of the definitions in specs."""
from __future__ import annotations

import glob
import subprocess
from pathlib import Path

from definitions import Definition, defined_again, definitions, file_sentence
from texts import read

from support.planted import catches

HERE = str(Path(__file__).resolve().parent.parent.parent)
SHELF = """-- Books on a shelf. What stands
-- elsewhere is not meant.
use Rattle.std.specs.Prelude.{ℕ, List}

-- ---- sizes

-- how wide a book is, by Book.pages
-- and 2 covers. It is never 0.
abbrev pub width : Book → ℕ
width book = book.pages

-- the shelf is full
pub record IsFull (shelf : Shelf) : Type 0 where
  -- the books fill it
  pub sum : total shelf ≡ shelf.width

module _ (shelf : Shelf) where
  -- an order of books
  pub data Order : Type 0 where
    ByName BySize : Order

  -- the first book, and the last
  unfoldable pub first : Option Book
  abbrev pub last : Option Book
  abbrev hidden : Option Book

abbrev pub next : Option Book

-- ---- the end of the shelf

abbrev pub closed : Bool
"""
FOUND = [
    ("width", "how wide a book is, by Book.pages and 2 covers"),
    ("IsFull", "the shelf is full"),
    ("Order", "an order of books"),
    ("first", "the first book, and the last"),
    ("last", "the first book, and the last"),
    # without a comment of its own, and after a heading
    ("next", "the first book, and the last"),
    ("closed", "the end of the shelf"),
]


def written(folder: Path, **texts: str) -> str:
    """The top of a repository with these files, each named CRATE_FILE."""
    for name, text in texts.items():
        crate, _, file = name.partition("_")
        path = folder / "crates" / crate / "specs" / f"{file}.antt"
        path.parent.mkdir(parents=True, exist_ok=True)
        path.write_text(text, encoding="utf-8")
    return str(folder)


@catches("tools/lib/definitions.py", "comment = [*comment, said[1]] if goes_on else [said[1]]", "comment = [said[1]]")
@catches("tools/lib/definitions.py", "(?:---- ?)?", "(?!---)")
def test_each_word_has_its_file_and_the_first_sentence_of_its_comment(tmp_path):
    top = written(tmp_path, shop_Shelf=SHELF, shop_Lib="pub mod Shelf\n")
    assert list(definitions(top)) == [Definition(word, "shop/Shelf", sentence) for word, sentence in FOUND]


@catches("tools/lib/definitions.py", "return first_sentence(comment)", "return comment[0]")
def test_a_file_is_listed_by_its_first_sentence():
    assert file_sentence(SHELF) == "Books on a shelf"


@catches("tools/lib/definitions.py", "for path in files(top, crate):", "for path in files(top):")
def test_a_crate_can_be_chosen(tmp_path):
    top = written(tmp_path, shop_Shelf="abbrev pub width : ℕ\n", yard_Gate="abbrev pub height : ℕ\n")
    assert [(it.word, it.file) for it in definitions(top, "yard")] == [("height", "yard/Gate")]


@catches("tools/lib/definitions.py", "if len(at) > 1)", "if len(at) > 2)",
         also=["test_a_word_that_is_defined_again_in_its_own_file_is_printed"])
def test_a_word_that_is_defined_again_is_printed_with_each_of_its_files(tmp_path):
    top = written(tmp_path, shop_Shelf="abbrev pub width : ℕ\n\nabbrev pub depth : ℕ\n",
                  shop_Wall="pub record Wall : Type 0 where\n  pub depth : ℕ\n",
                  yard_Gate="unfoldable pub width : ℕ\n\nabbrev pub Width : ℕ\n")
    assert list(defined_again(definitions(top))) == ["width: shop/Shelf, yard/Gate"]


def test_a_word_that_is_defined_again_in_its_own_file_is_printed(tmp_path):
    top = written(tmp_path, shop_Shelf="abbrev pub width : ℕ\n\npub data width : Type 0 where\n")
    assert list(defined_again(definitions(top))) == ["width: shop/Shelf, shop/Shelf"]


@catches("tools/lib/definitions.py", "pub|pub record|pub data)", "pub|pub data)")
def test_all_definitions_of_the_crates_are_found():
    lines = [line.split() for path in glob.glob("crates/*/specs/*.antt", root_dir=HERE)
             for line in read(f"{HERE}/{path}").split("\n")]
    wanted = [words[2] for words in lines
              if words[:2] in (["abbrev", "pub"], ["unfoldable", "pub"], ["pub", "record"], ["pub", "data"])]
    assert len(wanted) > 1000
    assert sorted(it.word for it in definitions(HERE)) == sorted(wanted)


@catches("tools/list-specs", "signal.signal(signal.SIGPIPE, signal.SIG_DFL)", "pass")
def test_a_list_that_is_cut_off_ends_without_a_word():
    """As by `tools/list-specs --words | head`."""
    words = [f"{HERE}/tools/list-specs", "--words"]
    with subprocess.Popen(words, stdout=subprocess.PIPE, stderr=subprocess.PIPE) as listing:
        listing.stdout.readline()
        listing.stdout.close()
        assert listing.stderr.read() == b"" and listing.wait(timeout=60) < 0
