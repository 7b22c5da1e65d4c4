"""Makes bugs in Python by its syntax tree: one small edit each, by kind, drawn with a seed so that each kind comes.

A text is changed in the place of one node and nowhere else, so comments and the form of the file stay."""
from __future__ import annotations

import ast
import functools
import random
from collections.abc import Iterator, Mapping
from dataclasses import dataclass

COMPARED = {ast.Lt: "<=", ast.LtE: "<", ast.Gt: ">=", ast.GtE: ">", ast.Eq: "!=", ast.NotEq: "==", ast.In: "not in",
            ast.NotIn: "in", ast.Is: "is not", ast.IsNot: "is"}
WORDS = {ast.Lt: "<", ast.LtE: "<=", ast.Gt: ">", ast.GtE: ">=", ast.Eq: "==", ast.NotEq: "!=", ast.In: "in",
         ast.NotIn: "not in", ast.Is: "is", ast.IsNot: "is not"}
COUNTED = {ast.Add: ast.Sub, ast.Sub: ast.Add, ast.Mult: ast.FloorDiv, ast.FloorDiv: ast.Div, ast.Div: ast.FloorDiv,
           ast.LShift: ast.RShift, ast.RShift: ast.LShift, ast.Mod: ast.Mult}
FLAGS = {"LOCK_EX": "LOCK_SH", "O_EXCL": "O_CREAT", "O_APPEND": "O_TRUNC", "fsync": "fstat", "gmtime": "localtime",
         "realpath": "abspath", "startswith": "endswith", "endswith": "startswith", "replace": "rename",
         "fullmatch": "match", "search": "match"}
# methods that leave most texts as they are
TIDYING = {"strip", "lstrip", "rstrip", "lower", "upper", "casefold", "removeprefix", "removesuffix"}
CALLED = {"min": "max", "max": "min", "any": "all", "all": "any", "sum": "len", "sorted": "list"}


@dataclass(frozen=True)
class Mutant:
    """One bug: where it is, of which kind, the lines before and after, and the whole text with it."""
    file: str
    function: str
    kind: str
    line: int
    column: int
    old: str
    new: str
    source: str

    def __str__(self) -> str:
        return f"{self.file}:{self.line} ({self.function}), {self.kind}: {self.old} => {self.new}"

    @property
    def key(self) -> tuple[str, str, str, str]:
        """What stays the same if lines move."""
        return self.file, self.function, self.old, self.new

    def told(self) -> dict[str, object]:
        """What is kept of it, without the whole text."""
        return {key: value for key, value in vars(self).items() if key != "source"}


class Places:
    """The bytes of a text between two nodes' ends: the tree counts columns in bytes."""

    def __init__(self, text: str) -> None:
        self.data = text.encode()
        self.starts = [0]
        for line in self.data.splitlines(keepends=True):
            self.starts.append(self.starts[-1] + len(line))

    def span(self, node: ast.AST) -> tuple[int, int]:
        return (self.starts[node.lineno - 1] + node.col_offset, self.starts[node.end_lineno - 1] + node.end_col_offset)

    def text(self, node: ast.AST) -> str:
        start, end = self.span(node)
        return self.data[start:end].decode()

    def lines(self, node: ast.AST, new: str) -> tuple[str, str]:
        """The lines of a node, as they are and with the new text, each gap as one blank."""
        start, end = self.span(node)
        first, last = self.starts[node.lineno - 1], self.starts[node.end_lineno]
        before, after = self.data[first:start].decode(), self.data[end:last].decode()
        return " ".join(self.data[first:last].decode().split()), " ".join(f"{before}{new}{after}".split())

    def with_new(self, node: ast.AST, new: str) -> str:
        start, end = self.span(node)
        return (self.data[:start] + new.encode() + self.data[end:]).decode()


def nodes_of(tree: ast.AST) -> Iterator[tuple[ast.AST, str]]:
    """Each node that does something, with the name of its function: not types, and not what stands inside an f-string,
    whose places the tree tells wrongly before Python 3.12."""
    waiting: list[tuple[ast.AST, str]] = [(tree, "")]
    while waiting:
        node, function = waiting.pop()
        if isinstance(node, ast.If) and "TYPE_CHECKING" in ast.dump(node.test):
            continue
        yield node, function
        if isinstance(node, (ast.FunctionDef, ast.AsyncFunctionDef, ast.ClassDef)):
            function = f"{function}.{node.name}".lstrip(".")
        waiting += [(it, function) for it in children_of(node)][::-1]


def children_of(node: ast.AST) -> Iterator[ast.AST]:
    if isinstance(node, ast.JoinedStr):
        return
    for name, value in ast.iter_fields(node):
        if name not in ("annotation", "returns", "decorator_list"):
            yield from (it for it in (value if isinstance(value, list) else [value]) if isinstance(it, ast.AST))


Edit = tuple[str, ast.AST, str]


def edits_of(node: ast.AST, places: Places) -> Iterator[Edit]:
    """The kind, the node that is replaced and its new text, for each bug at this node."""
    yield from edits_of_condition(node, places)
    yield from edits_of_value(node, places)
    yield from edits_of_statement(node)
    yield from edits_of_parts(node, places)
    if isinstance(node, ast.Call):
        yield from edits_of_call(node, places)
    if isinstance(node, ast.arguments):
        for given in [*node.defaults, *node.kw_defaults]:
            yield from edits_of_default(given)


def edits_of_condition(node: ast.AST, places: Places) -> Iterator[Edit]:
    if isinstance(node, ast.Compare):
        compared = [places.text(it) for it in (node.left, *node.comparators)]
        for at, operator in enumerate(node.ops):
            words = [it for each, text in zip(node.ops, compared[1:])
                     for it in (COMPARED[type(each)] if each is operator else WORDS[type(each)], text)]
            yield "compare", node, " ".join([compared[0], *words])
    if isinstance(node, (ast.If, ast.While, ast.IfExp)):
        yield "negate", node.test, f"not ({places.text(node.test)})"
    if isinstance(node, ast.comprehension):
        for test in node.ifs:
            yield "negate", test, f"(not ({places.text(test)}))"
    if isinstance(node, ast.BoolOp):
        words = {ast.And: " or ", ast.Or: " and "}[type(node.op)]
        yield "and-or", node, f"({words.join(places.text(it) for it in node.values)})"


def edits_of_value(node: ast.AST, places: Places) -> Iterator[Edit]:
    if isinstance(node, ast.BinOp) and type(node.op) in COUNTED:
        kind = "float" if isinstance(node.op, (ast.FloorDiv, ast.Div)) else "arithmetic"
        if not isinstance(node.left, (ast.JoinedStr, ast.Constant)) or isinstance(getattr(node.left, "value", 0), int):
            yield kind, node, ast.unparse(ast.BinOp(node.left, COUNTED[type(node.op)](), node.right))
    if isinstance(node, ast.Constant) and type(node.value) in (int, float):
        for new in {node.value + 1, max(0, node.value - 1)} - {node.value}:
            yield "bound", node, repr(new)
    if isinstance(node, ast.Constant) and type(node.value) is bool:
        yield "constant", node, repr(not node.value)
    if isinstance(node, ast.Attribute) and node.attr in FLAGS:
        yield "flag", node, f"{places.text(node.value)}.{FLAGS[node.attr]}"
    if isinstance(node, ast.BinOp) and isinstance(node.op, ast.BitOr):
        yield "flag", node, places.text(node.left)
    if isinstance(node, ast.UnaryOp) and isinstance(node.op, ast.USub) and isinstance(node.operand, ast.Constant):
        yield "bound", node, "0"
    if isinstance(node, ast.Slice) and node.lower and not node.upper:
        yield "bound", node, f"{places.text(node.lower)}:-1"


def edits_of_statement(node: ast.AST) -> Iterator[Edit]:
    if isinstance(node, (ast.Expr, ast.AugAssign, ast.Raise, ast.Continue, ast.Break)) and not is_text(node):
        yield "drop", node, "pass"
    if isinstance(node, ast.If) and not node.orelse:
        yield "branch", node, "pass"
    if isinstance(node, ast.ExceptHandler) and not isinstance(node.body[0], ast.Pass):
        first, last = node.body[0], node.body[-1]
        body = ast.Pass(lineno=first.lineno, col_offset=first.col_offset, end_lineno=last.end_lineno,
                        end_col_offset=last.end_col_offset)
        yield "swallow", body, "pass"
    if isinstance(node, ast.Return) and node.value is not None and not is_none(node.value):
        yield "return", node, "return None"


def edits_of_parts(node: ast.AST, places: Places) -> Iterator[Edit]:
    """One of several left out: of the parts of a condition, of the exceptions that are caught, of what a list or a set
    has; and of what is gone through all but the first."""
    def without(one: ast.AST, among: list[ast.expr], between: str = ", ") -> str:
        return between.join(places.text(it) for it in among if it is not one)

    if isinstance(node, ast.BoolOp):
        for it in node.values:
            yield "part", node, f"({without(it, node.values, ' and ' if isinstance(node.op, ast.And) else ' or ')})"
    if isinstance(node, ast.ExceptHandler) and isinstance(node.type, ast.Tuple):
        for it in node.type.elts:
            yield "caught", node.type, f"({without(it, node.type.elts)},)"
    if isinstance(node, (ast.List, ast.Set)) and len(node.elts) > 1 and not is_written(node):
        for it in node.elts:
            inside = without(it, node.elts)
            yield "element", node, f"[{inside}]" if isinstance(node, ast.List) else f"{{{inside}}}"
    if isinstance(node, (ast.For, ast.comprehension)):
        yield "once", node.iter, f"[*{places.text(node.iter)}][:1]"


def edits_of_call(node: ast.Call, places: Places) -> Iterator[Edit]:
    yield from edits_of_words(node, places)
    function, given = node.func, [it.arg for it in node.keywords]
    name = function.id if isinstance(function, ast.Name) else None
    if name in CALLED and node.args:
        yield "order" if name == "sorted" else "called", function, CALLED[name]
    is_sort = isinstance(function, ast.Attribute) and function.attr == "sort"
    if (name == "sorted" or is_sort) and "reverse" not in given:
        inside = places.text(node)[:-1].rstrip(", ")
        yield "order", node, f"{inside}{'' if inside.endswith('(') else ', '}reverse=True)"
    if name == "reversed":
        yield "order", function, "list"
    if name in ("int", "round") and len(node.args) == 1:
        yield "float", function, "float" if name == "int" else ""
    if isinstance(function, ast.Attribute) and function.attr == "get" and len(node.args) == 2:
        yield from edits_of_default(node.args[1])
    for keyword in node.keywords:
        if keyword.arg == "check" and isinstance(keyword.value, ast.Constant):
            yield "swallow", keyword.value, "False"
        if keyword.arg == "default":
            yield from edits_of_default(keyword.value)


def edits_of_words(node: ast.Call, places: Places) -> Iterator[Edit]:
    """A call without one of its keywords, or with two words that changed places; and the text that a method tidies as
    it is."""
    for one in node.keywords:
        if one.arg:
            kept = [places.text(it) for it in [*node.args, *node.keywords] if it is not one]
            yield "keyword", node, f"{places.text(node.func)}({', '.join(kept)})"
    for at, (first, second) in enumerate(zip(node.args, node.args[1:])):
        if not isinstance(first, ast.Starred) and not isinstance(second, ast.Starred):
            turned = [*node.args[:at], second, first, *node.args[at + 2:], *node.keywords]
            yield "turned", node, f"{places.text(node.func)}({', '.join(map(places.text, turned))})"
    if isinstance(node.func, ast.Attribute) and node.func.attr in TIDYING:
        yield "tidy", node, places.text(node.func.value)


def edits_of_default(given: ast.AST | None) -> Iterator[Edit]:
    """Another default: a number one higher, another text, nothing in place of something."""
    if isinstance(given, ast.Constant) and type(given.value) in (int, float):
        yield "default", given, repr(given.value + 1)
    elif isinstance(given, ast.Constant) and isinstance(given.value, str):
        yield "default", given, repr(given.value[:-1] if given.value else "x")
    elif isinstance(given, ast.Constant) and type(given.value) is bool:
        yield "default", given, repr(not given.value)
    elif given is not None and not is_none(given):
        yield "default", given, "None"


def is_text(node: ast.AST) -> bool:
    return isinstance(node, ast.Expr) and isinstance(node.value, ast.Constant)


def is_written(node: ast.List | ast.Set) -> bool:
    """Whether it stands where names are given values."""
    return isinstance(node, ast.List) and not isinstance(node.ctx, ast.Load)


def is_none(node: ast.AST) -> bool:
    return isinstance(node, ast.Constant) and node.value is None


def mutants_of(file: str, text: str) -> list[Mutant]:
    """Each mutant of a program, in the order of their places. Not all of them are programs: see is_program."""
    places, found = Places(text), {}
    for node, function in nodes_of(ast.parse(text)):
        for kind, at, new in edits_of(node, places):
            made = places.with_new(at, new)
            if made != text and made not in found:
                old, after = places.lines(at, new)
                found[made] = Mutant(file, function, kind, at.lineno, at.col_offset, old, after, made)
    return sorted(found.values(), key=lambda it: (it.line, it.column, it.kind, it.new))


@functools.lru_cache(maxsize=64)
def tree_of(text: str) -> str:
    return ast.dump(ast.parse(text))


def is_program(mutant: Mutant, text: str) -> bool:
    """Whether a mutant of this text is Python, and another tree."""
    try:
        return ast.dump(ast.parse(mutant.source)) != tree_of(text)
    except (SyntaxError, ValueError):
        return False


def drawn(mutants: list[Mutant], texts: Mapping[str, str], count: int, chance: random.Random) -> list[Mutant]:
    """So many of them that are programs: by turns one of each kind, so that a rare kind comes as well."""
    by_kind: dict[str, list[Mutant]] = {}
    for it in mutants:
        by_kind.setdefault(it.kind, []).append(it)
    for those in by_kind.values():
        chance.shuffle(those)
    chosen: list[Mutant] = []
    while len(chosen) < count and by_kind:
        for kind in sorted(by_kind):
            one = by_kind[kind].pop()
            chosen += [one] if is_program(one, texts[one.file]) else []
            if not by_kind[kind]:
                del by_kind[kind]
    return chosen[:count]
