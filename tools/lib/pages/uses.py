"""The lines of use with which the README of each crate begins, and whether each call in them is one of the crates, with
as many arguments, and each variant one of its type. They are not compiled."""
from __future__ import annotations

import re
from typing import Iterator, List, Tuple

from contracts import sources
from pages.files import read
from top import TOP

# its owner, its name, and its parameters
Function = Tuple[str, str, List[str]]

LONGEST = 6
BLOCK = re.compile(r"\A# \S+\n\n.+\n\n```(rust|sh)\n(.*?)^```$", re.S | re.M)
OWNER = re.compile(r"^(?:impl\b(?:<[^\n]*?>)? (?:[^\n]* for )?|(?:pub )?(?:trait|enum|struct) )(\w+)", re.M)
FUNCTION = re.compile(r"^(?: *)(?:pub )?(?:const )?fn (\w+)(?:<[^(\n]*>)?\(", re.M)
CALL = re.compile(r"(?:\b(\w+)::|(\.))?\b([a-z]\w*)\(")
VARIANT = re.compile(r"\b([A-Z]\w+)::([A-Z]\w*)\b")
STRING = re.compile(r'b?r?#"[^\n]*?"#|b?"(?:\\.|[^"\\\n])*"')
# calls of the library, and of the reader's own program
OTHERS = {"BufReader::new", "Vec::new", "io::writer", ".stdin", ".as_slice", "check", "refuse", "reply", "run"}


def crates() -> dict[str, str]:
    """The crates, by name, each with what its sources say."""
    found: dict[str, list[str]] = {}
    for path, text in sources(TOP):
        found.setdefault(path.split("/")[1], []).append(text)
    return {name: "\n".join(texts) for name, texts in found.items()}


def parts(text: str, at: int) -> list[str]:
    """The parts between commas of a list in brackets that begins at this place."""
    found, depth, closing = [""], 0, {"(": ")", "[": "]", "{": "}", "<": ">"}
    for character in text[at:].replace("->", "  ").replace("=>", "  "):
        depth += (character in closing) - (character in closing.values())
        if not depth:
            break
        if character == "," and depth == 1:
            found.append("")
        else:
            found[-1] += character
    return [part for part in (it.lstrip("([{<").strip() for it in found) if part]


def functions(text: str) -> Iterator[Function]:
    """The functions of some sources, each with its owner and its parameters."""
    owners = [(match.start(), match[1]) for match in OWNER.finditer(text)]
    for match in FUNCTION.finditer(text):
        above = [name for at, name in owners if at < match.start()] if match[0].startswith(" ") else []
        yield above[-1] if above else "", match[1], parts(text, match.end() - 1)


def takes(count: int, owner: str, is_method: bool, function: Function) -> bool:
    """Whether a function of an owner takes so many arguments, as it is called."""
    of, _, parameters = function
    has_self = bool(parameters) and bool(re.fullmatch(r"(&(mut )?)?(mut )?self", parameters[0]))
    if is_method:
        return has_self and len(parameters) - 1 == count
    return of == owner and len(parameters) == count


def lacks_of(code: str, known: list[Function], own: list[Function]) -> Iterator[str]:
    """What is wrong with the calls in some code, by the functions of all crates and those of its own."""
    is_own = False
    for match in CALL.finditer(code):
        owner, dot, name = match.groups()
        if f"{owner}::{name}" in OTHERS or f"{dot or ''}{name}" in OTHERS:
            continue
        count = len(parts(code, match.end() - 1))
        fits = [it for it in known if it[1] == name and takes(count, owner or "", bool(dot), it)]
        if not fits:
            yield f"no function {match[0]}..) with {count} arguments"
        is_own = is_own or any(it in own for it in fits)
    is_own = is_own or any(re.search(rf"\b{owner} \{{", code) for owner, _, _ in own if owner)
    yield from () if is_own else ["nothing of this crate"]


def lacks_variants(block: str, text: str) -> Iterator[str]:
    """The variants in lines of Rust that no type of these sources has."""
    for owner, name in VARIANT.findall(re.sub(r'"[^"\n]*"', "", block)):
        found = re.search(rf"\benum {owner}\b[^{{]*\{{(.*?)^\}}", text, re.S | re.M)
        if not found or not re.search(rf"^    {name}\b", found[1], re.M):
            yield f"no variant {owner}::{name}"


def uses() -> Iterator[tuple[str, list[str]]]:
    """The README of each crate, with what is wrong with its lines of use."""
    texts = crates()
    all_known, all_text = [it for text in texts.values() for it in functions(text)], "\n".join(texts.values())
    for name, text in texts.items():
        page = f"crates/{name}/README.md"
        block = BLOCK.match(read(page))
        if not block:
            yield page, ["it does not begin with a title, a paragraph and lines of use"]
            continue
        wrong = [] if block[2].count("\n") <= LONGEST else [f"more than {LONGEST} lines"]
        if block[1] == "rust":
            code = STRING.sub("text", re.sub(r" *//.*", "", block[2]))
            wrong += lacks_of(code, all_known, list(functions(text)))
            wrong += lacks_variants(block[2], all_text)
        yield page, wrong
