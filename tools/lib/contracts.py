"""What makes contracts hard to read aloud: words of clauses with many arguments by place, clauses that repeat others,
and long lines of specs."""
from __future__ import annotations

import collections
import glob
import itertools
import re
from typing import Iterable, Iterator

from texts import read

FUNCTION = re.compile(r"^\s*(?:pub(?:\([a-z]+\))?\s+)?(?:const\s+)?(?:unsafe\s+)?fn\s+(\w+)", re.M)
CLAUSE = re.compile(r"^\s*(ensures|requires)\*?\s*\w*\s*\{", re.M)
TOKEN = re.compile(r"\s*(λ|[()\[\]{}⟦⟧⟨⟩]|\"[^\"]*\"|[^\s()\[\]{}⟦⟧⟨⟩,;\"λ]+|[,;])")
OPENING, CLOSING = "([{⟦⟨", ")]}⟧⟩"
# what stands between two applications
BETWEEN = frozenset("≡ ≢ × → ↔ ⊎ ¬ + - * ≤ < ∷ ++ && || , ; . : = let in if then else".split())


def sources(top: str) -> Iterator[tuple[str, str]]:
    """Yields the path and the text of each source file of a crate."""
    for path in sorted(glob.glob("crates/*/src/**/*.rt", root_dir=top, recursive=True)):
        yield path, read(f"{top}/{path}")


def clauses(text: str) -> Iterator[tuple[str, int, str]]:
    """Yields the clauses of a source file, each with its first word and the number of its first line."""
    for head in CLAUSE.finditer(text):
        depth, at = 1, head.end()
        while depth and at < len(text):
            depth += (text[at] == "{") - (text[at] == "}")
            at += 1
        yield head[1], text.count("\n", 0, head.end()) + 1, text[head.end():at - 1]


def applications(tokens: Iterator[str]) -> Iterator[tuple[str, int]]:
    """Yields each word that is applied in a group, with the number of its arguments. An argument is a name, a number, a
    text, a group in brackets, or a lambda, which goes on to the end of its group. `tokens` is left behind that end."""
    word, count = "", 0
    for token in tokens:
        if token in CLOSING:
            break
        if token in OPENING:
            yield from applications(tokens)
            word, count = (word, count + 1) if word else (token, 0)
        elif token == "λ" or token in BETWEEN:
            yield word, count + (token == "λ")
            word, count = "", 0
            while token == "λ" and not next(tokens, ".").endswith("."):
                pass
        elif word:
            count += 1
        else:
            word = token
    yield word, count


def wide_words(top: str, most: int) -> Iterator[str]:
    """Yields where a word of a clause in a crate's sources takes more than `most` arguments by place."""
    for path, text in sources(top):
        for _first, line, clause in clauses(text):
            for word, count in applications(iter(TOKEN.findall(clause))):
                if count > most and word[0].isalpha() and word != "Some":
                    yield f"{path}:{line} {word} takes {count}"


def functions_of(text: str) -> Iterator[tuple[str, list[str]]]:
    """Yields the name of each function of a source file that has clauses, and these, one after the other."""
    heads = [(text.count("\n", 0, head.start(1)) + 1, head[1]) for head in FUNCTION.finditer(text)]
    for (_line, name), group in itertools.groupby(
            clauses(text), lambda clause: max(head for head in heads if head[0] <= clause[1])):
        yield name, [clause for _first, _line, clause in group]


def long_contracts(top: str, most: int) -> Iterator[str]:
    """Yields each function whose clauses have more than `most` lines together."""
    for path, text in sources(top):
        for name, found in functions_of(text):
            lines = sum(clause.count("\n") + 1 for clause in found)
            if lines > most:
                yield f"{path}: {name} has {lines}"


def repeated_clauses(top: str, most: int) -> Iterator[str]:
    """Yields each clause of more than one line that stands more than `most` times, but for its name and its white
    space."""
    times = collections.Counter((first, " ".join(clause.split())) for _path, text in sources(top)
                                for first, _line, clause in clauses(text) if "\n" in clause)
    for (first, clause), count in times.items():
        if count > most:
            yield f"{count} times: {first} {{ {clause} }}"


def long_lines(lines: Iterable[tuple[int, str]], columns: int) -> Iterator[int]:
    """Yields the numbers of those of these lines, each with its number, that have more than so many columns."""
    return (number for number, line in lines if len(line) > columns)


def long_logic_lines(top: str, folder: str, columns: int) -> Iterator[str]:
    """Yields where a line of this folder of a crate, `specs` or `proofs`, has more than so many columns."""
    for path in sorted(glob.glob(f"crates/*/{folder}/**/*.antt", root_dir=top, recursive=True)):
        for number in long_lines(enumerate(read(f"{top}/{path}").splitlines(), 1), columns):
            yield f"{path}:{number}"


def long_clause_lines(top: str, columns: int) -> Iterator[str]:
    """Yields where a line of a clause in a crate's sources has more than so many columns."""
    for path, text in sources(top):
        lines = text.splitlines()
        for _first, line, clause in clauses(text):
            last = line + clause.count("\n")
            for number in long_lines(enumerate(lines[line - 1:last], line), columns):
                yield f"{path}:{number}"
