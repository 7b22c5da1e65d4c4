"""The definitions in the specs of the crates: each word with its file, and the first sentence of its comment."""
import glob
import re
from typing import Dict, Iterable, Iterator, List, NamedTuple

from texts import read

DEFINED = re.compile(r" *(?:(?:abbrev|unfoldable) pub|pub record|pub data) (\S+)")
# of a heading, which begins with "-- ----", what follows
COMMENT = re.compile(r" *-- ?(?:---- ?)?(.*)")


class Definition(NamedTuple):
    """A word of the specs. `file` is CRATE/FILE. Words that follow one comment, or a heading alone,
    share its sentence."""
    word: str
    file: str
    sentence: str


def first_sentence(comment: List[str]) -> str:
    """The first sentence of a comment's lines, without its full stop."""
    return re.split(r"\.(?: |$)", " ".join(comment), maxsplit=1)[0]


def blocks(lines: List[str]) -> Iterator[List[str]]:
    """The paragraphs of a file: lines between empty ones."""
    block: List[str] = []
    for line in [*lines, ""]:
        if line.strip():
            block.append(line)
        elif block:
            yield block
            block = []


def in_file(file: str, text: str) -> Iterator[Definition]:
    """The definitions in the text of a file."""
    comment: List[str] = []
    for block in blocks(text.split("\n")):
        goes_on = False
        for line in block:
            said, defined = COMMENT.fullmatch(line), DEFINED.match(line)
            if said:
                comment = [*comment, said[1]] if goes_on else [said[1]]
            elif defined:
                yield Definition(defined[1], file, first_sentence(comment))
            goes_on = said is not None


def files(top: str, crate: str = "*") -> Iterator[str]:
    """The paths of the files of definitions, from the top of the repository."""
    found = sorted(glob.glob(f"crates/{crate}/specs/*.antt", root_dir=top))
    return (it for it in found if not it.endswith("/Lib.antt"))


def name_of(path: str) -> str:
    """CRATE/FILE, from a path."""
    return path.replace("crates/", "", 1).replace("/specs/", "/").replace(".antt", "")


def file_sentence(text: str) -> str:
    """The first sentence of a file: what it defines."""
    comment = [found[1] for found in map(COMMENT.fullmatch, next(blocks(text.split("\n")))) if found]
    return first_sentence(comment)


def definitions(top: str, crate: str = "*") -> Iterator[Definition]:
    """All definitions, file by file."""
    for path in files(top, crate):
        yield from in_file(name_of(path), read(f"{top}/{path}"))


def defined_again(found: Iterable[Definition]) -> Iterator[str]:
    """Each word that is defined more than once, with the file of each definition."""
    places: Dict[str, List[str]] = {}
    for it in found:
        places.setdefault(it.word, []).append(it.file)
    return (f"{word}: {', '.join(at)}" for word, at in sorted(places.items()) if len(at) > 1)
