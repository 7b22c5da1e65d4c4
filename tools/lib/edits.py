"""Wrong bodies as they stand in files, and the sources of a crate with some of them made."""
from __future__ import annotations

import os
import re
import subprocess
from typing import Any, Collection, Dict, Iterator, Mapping, Sequence, Tuple

from texts import read

# the head of an impl that is of no trait, and of a function, in a file that `rt fmt` laid out
IMPL = re.compile(r"impl\b(?:<.*?>)? (\w+)(?:<.*>)? \{$")
FUNCTION = re.compile(r"( {4})?(?:pub(?:\(\w+\))? )?(?:const )?fn (\w+)")
# a check proves one edit after the other, in some 7 seconds each in the dearest crate, beside half a minute of its own
MOST_IN_A_PART = 20


# the function that is to be asked for, and the changed files by their paths
Made = Tuple[str, Dict[str, str]]
NOTHING: Made = ("", {})


class Edit:
    """A wrong body, or the harmless twin of one: its function, and what is wrong with it if it can't be tried."""

    def __init__(self, rt: Any, crate: Any, file: str, is_twin: bool = False) -> None:
        self.file, self.is_of_must_fail = file, os.path.basename(os.path.dirname(file)) == "must-fail"
        self.name = os.path.splitext(os.path.relpath(file, os.path.dirname(crate.folder)))[0]
        self.text: str = rt.rtlib.text_of(file) or ""
        self.is_twin = is_twin
        found = re.search(r"^fn: (\S+)$", self.text, re.M)
        self.function: str = found[1] if found else ""
        self.wrong: str | None = rt.read_edit(file, crate.folder)[1]
        # (the kit knows no line 'fn:', so it wants a text that the whole file has once)
        if is_twin or self.function and not self.is_of_must_fail:
            self.wrong = self.wrong_of(crate.folder)
        self.is_alone = not self.wrong and bool(self.function) and not self.is_within(crate.folder)

    def pairs(self) -> Iterator[tuple[str, str, str]]:
        """Yields the file, the text that goes and the text that comes, of each change. A twin makes those alone that
        have a line of its own, below the wrong body's."""
        path, old, comes = "", "", "twin:" if self.is_twin else "new:"
        for line in self.text.split("\n"):
            if line.startswith("file: "):
                path = line[len("file: "):].strip()
            elif line.startswith("old: "):
                old = line[len("old: "):]
            elif line.startswith(comes):
                yield path, old, re.sub(r"\A ", "", line[len(comes):])

    def has_twin(self) -> bool:
        return bool(re.search("^twin:", self.text, re.M))

    def changed(self, text: str, old: str, new: str) -> str | None:
        """Returns the text of a file with one change more, or None where the old text is not there once."""
        at = place_of(text, old, self.function)
        return None if at is None else text[:at] + new + text[at + len(old) :]

    def wrong_of(self, folder: str) -> str | None:
        """Returns why the wrong body, or its twin, can't be made, or None."""
        texts: dict[str, str] = {}
        word = "twin" if self.is_twin else "new"
        for path, old, comes in self.pairs():
            if not path or not os.path.isfile(f"{folder}/{path}"):
                return f"it changes {path}, which is no file of the crate"
            text = texts.get(path) or read(f"{folder}/{path}")
            if comes == old:
                return f"its '{word}:' text is the text that stands there"
            changed = self.changed(text, old, comes)
            if changed is None:
                count = f"{text.count(old)} times, and not once in the file or in the function of the line 'fn:'"
                return f"an 'old:' text is in {path} {count}"
            texts[path] = changed
        return None if texts else f"it has no line '{word}:', or none that an 'old:' line stands above"

    def is_within(self, folder: str) -> bool:
        """Returns whether the changes stand below the head of the function, and of no other: other text may be
        what the edits beside this one are judged by."""
        name = self.function.rpartition("::")[2]
        texts: dict[str, str] = {}
        for path, old, new in self.pairs():
            text = texts.get(path) or read(f"{folder}/{path}")
            above = text[: (place_of(text, old, self.function) or 0) + len(old)]
            if re.findall(r"\bfn (\w+)", above)[-1:] != [name]:
                return False
            texts[path] = self.changed(text, old, new) or ""
        return True

    def beside(self, folder: str, texts: Mapping[str, str], asked: Collection[str]) -> Made:
        """Returns the function that is to be asked for, and texts, the changed files by their path, with this edit
        too, or two times nothing where it doesn't fit beside them. It is made in a copy of its function where that is
        one of those that are asked for."""
        if self.function in asked:
            return self.in_a_copy(folder, texts, asked)
        made = dict(texts)
        for path, old, new in self.pairs():
            changed = self.changed(made.get(path) or read(f"{folder}/{path}"), old, new)
            if changed is None:
                return NOTHING
            made[path] = changed
        return self.function, made

    def in_a_copy(self, folder: str, texts: Mapping[str, str], asked: Collection[str]) -> Made:
        """The same in a copy of the function, above it and by another name."""
        pairs, number = list(self.pairs()), 2
        while f"{self.function}_{number}" in asked:
            number += 1
        path, name = pairs[0][0], self.function.rpartition("::")[2]
        whole = read(f"{folder}/{path}")
        found = heads_of(whole, name)
        at = place_of(whole, pairs[0][1], self.function) or 0
        nth = len([it for it in found if it <= whole.count("\n", 0, at)]) - 1
        span = span_of(whole, found[nth])
        if span is None or any(it[0] != path for it in pairs):
            return NOTHING
        copy = "\n".join(whole.split("\n")[span[0] : span[1] + 1])
        for _, old, new in pairs:
            if copy.count(old) != 1:
                return NOTHING
            copy = copy.replace(old, new)
        copy = re.sub(rf"^( *(?:pub(?:\(\w+\))? )?(?:const )?fn {name})\b", rf"\1_{number}", copy, count=1, flags=re.M)
        rows = texts[path].split("\n")
        moved = span_of(texts[path], heads_of(texts[path], name)[nth])
        assert moved
        first = moved[0]
        return f"{self.function}_{number}", {**texts, path: "\n".join([*rows[:first], copy, "", *rows[first:]])}


def place_of(text: str, old: str, function: str) -> int | None:
    """Returns where an old text stands: where the function has it once, if the file has one function of this name, or
    where the file has it once. Else None."""
    heads = heads_of(text, function.rpartition("::")[2]) if function else []
    span = span_of(text, heads[0]) if len(heads) == 1 else None
    if span:
        rows = text.split("\n")
        begins, ends = (sum(len(it) + 1 for it in rows[:row]) for row in (span[0], span[1] + 1))
        if text.count(old, begins, ends) == 1:
            return text.index(old, begins)
    return text.index(old) if text.count(old) == 1 else None


def heads_of(text: str, name: str) -> list[int]:
    """Returns the rows in which the head of a function of this name begins."""
    heads = [FUNCTION.match(it) for it in text.split("\n")]
    return [row for row, head in enumerate(heads) if head and head[2] == name]


def span_of(text: str, head: int) -> tuple[int, int] | None:
    """Returns the first and the last row of the function whose head is in this one, or None where it is of a
    trait."""
    rows = text.split("\n")
    indent = indent_of(rows[head])
    block = next((it for it in reversed(rows[:head]) if it[:1] not in ("", " ")), "")
    if indent and not IMPL.match(block):
        return None
    first = head
    while first and rows[first - 1].strip() and rows[first - 1].startswith(indent):
        first -= 1
    return first, rows.index(f"{indent}}}", head)


def indent_of(head: str) -> str:
    """Returns the white space before the head of a function."""
    found = FUNCTION.match(head)
    return found[1] or "" if found else ""


def words_of(text: str) -> list[str]:
    """Returns the names in the text of a type, without lifetimes and the modules of paths. Above those of a tuple
    stands how many it has."""
    text = re.sub(r"\(([^()]+)\)", lambda it: f"Tuple{it[1].count(',') + 1} {it[1]}", re.sub(r"'\w+", "", text))
    return re.findall(r"\w+(?!\w|::)", text)


def name_of_impl(head: str, types: Collection[str]) -> str | None:
    """Returns the name under which a check tells the methods of an impl with this head: of a trait's impl the names of
    the type and of the trait, each with the types that it is given, else that of the type. None for a type that is not
    among these, which are those of its file, and for what is no impl."""
    found = re.match(r"impl\b(?:<(.*?)>)? (?:([^{]+?) for )?([^{]+) \{$", head)
    if not found:
        return None
    parameters = {words_of(it)[0] for it in (found[1] or "").split(",") if words_of(it)}
    trait, (owner, *given) = found[2], words_of(found[3])
    if trait and trait != "Drop":
        return "".join(it[0].upper() + it[1:] for it in [owner, *given, *words_of(trait)] if it not in parameters)
    if owner not in types:
        return None
    # (one that is of some types alone has them in its name)
    return owner if set(given) <= parameters else "+".join([owner, *given])


def written_in(file: str, text: str) -> Iterator[tuple[str, int]]:
    """Yields the functions that a file below `src` with this text has, but for those of types of other files, each
    with the row of its head."""
    module, block = file.removesuffix(".rt").replace("/", "."), ""
    types = re.findall(r"^(?:pub(?:\(\w+\))? )?(?:struct|enum) (\w+)", text, re.M)
    for row, line in enumerate(text.split("\n")):
        if line[:1] not in ("", " "):
            block = line
        head = FUNCTION.match(line)
        owner = name_of_impl(block, types) if head and head[1] else None
        if head and (owner or not head[1]):
            path = ["" if module in ("lib", "main") else module, owner, head[2]]
            yield ".".join(it for it in path if it), row


def emptied(file: str, text: str, asked: Collection[str]) -> str:
    """Returns the text of a file below `src` in which the functions that are not asked for have no body of their own:
    what is taken by its contract needs none, and the prover would read it all the same."""
    rows = text.split("\n")
    for path, head in reversed(list(written_in(file, text))):
        indent = indent_of(rows[head])
        ends = rows.index("", head) if "" in rows[head:] else len(rows)
        opens = [it for it in range(head, ends) if re.match(rf"{indent}(\S.*)?\{{$", rows[it])]
        if opens and path.replace(".", "::") not in asked:
            rows[opens[0] + 1 : rows.index(f"{indent}}}", opens[0])] = [f"{indent}    unreachable!()"]
    return "\n".join(rows)


def made_together(folder: str, edits: Sequence[Edit]) -> dict[str, str] | None:
    """Returns the texts of the files that these edits change, by their path in the crate, or None where they don't fit
    beside one another."""
    texts: dict[str, str] = {}
    for it in edits:
        _, texts = it.beside(folder, texts, ())
        if not texts:
            return None
    return texts


def share_of(edits: dict[Any, list[Edit]], share: tuple[int, int],
             whole: Collection[str] = ()) -> dict[Any, list[Edit]]:
    """Returns the edits of every n-th crate, from the k-th on, of a share (k, n), and those of the crates of these
    names. So many crates are in each: their checks cost less than those of single edits from all crates. A k that is
    too great goes round."""
    of = min(share[1], len(edits)) or 1
    return {crate: its for at, (crate, its) in enumerate(edits.items())
            if crate.name in whole or at % of == (share[0] - 1) % of}


def in_parts(edits: list[Edit]) -> list[list[Edit]]:
    """Returns a crate's edits in parts, each of which one check tries: it tries one after the other, and each part goes
    beside the others."""
    count = -(-len(edits) // MOST_IN_A_PART)
    return [edits[at::count] for at in range(count)]


def changed_since(top: str, commit: str, names: Collection[str]) -> Collection[str]:
    """Returns the names of the crates of a repository of which a file has changed since a commit, or all of these if
    git can't tell."""
    # (the tree may be another user's, as in a container)
    words = ["git", "-c", f"safe.directory={top}", "-C", top, "diff", "--name-only", commit, "--", "crates"]
    try:
        ended = subprocess.run(words, stdout=subprocess.PIPE, stderr=subprocess.DEVNULL, text=True)
    except OSError:
        return names
    return names if ended.returncode else {line.split("/")[1] for line in ended.stdout.splitlines()}


def edits_of(rt: Any, crate: Any, parts: Sequence[str], are_twins: bool = False) -> tuple[list[Edit], list[str]]:
    """Returns the crate's edits, or the twins of those in must-fail/ and of others that have one, and the files that
    are none and stand among them."""
    edits: list[Edit] = []
    strange: list[str] = []
    for part in parts:
        folder = f"{crate.folder}/{part}"
        for name in sorted(os.listdir(folder)) if os.path.isdir(folder) else []:
            if name.endswith(".edit"):
                edits.append(Edit(rt, crate, f"{folder}/{name}", are_twins))
            elif not name.endswith(".md"):
                strange.append(os.path.relpath(f"{folder}/{name}"))
    return [it for it in edits if not are_twins or it.is_of_must_fail or it.has_twin()], strange
