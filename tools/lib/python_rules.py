"""Rules on Python that check-style has of its own."""
from __future__ import annotations

import ast
from typing import Iterator

# Debian's pylint 2.16 finds less: of mutable defaults neither comprehensions, bytearray() nor those of lambdas; of
# names that hide imports neither what the top of a file, a comprehension nor a lambda binds, and it names each fixture
# that a test takes, 900 in all. Its bound on columns doesn't reach shell scripts.
MUTABLE = ast.List, ast.Dict, ast.Set, ast.ListComp, ast.DictComp, ast.SetComp
MUTABLE_CALLS = "list", "dict", "set", "bytearray", "defaultdict", "deque", "Counter"


def is_mutable(default: ast.expr) -> bool:
    called = getattr(default, "func", None)
    return isinstance(default, MUTABLE) or getattr(called, "id", getattr(called, "attr", None)) in MUTABLE_CALLS


def mutable_defaults(tree: ast.Module) -> Iterator[int]:
    """The lines of the parameters whose default can be changed by a call."""
    for node in ast.walk(tree):
        if isinstance(node, (ast.FunctionDef, ast.AsyncFunctionDef, ast.Lambda)):
            defaults = (*node.args.defaults, *node.args.kw_defaults)
            yield from (default.lineno for default in defaults if default and is_mutable(default))


def shadowed_imports(tree: ast.Module) -> Iterator[str]:
    """The names of imports at the top of a file that stand for something else further down, each with its line."""
    imported = {(name.asname or name.name).partition(".")[0] for node in tree.body
                if isinstance(node, (ast.Import, ast.ImportFrom)) for name in node.names}
    methods = {inner for node in ast.walk(tree) if isinstance(node, ast.ClassDef) for inner in node.body}
    for node in ast.walk(tree):
        name = None
        if isinstance(node, ast.Name) and isinstance(node.ctx, ast.Store):
            name = node.id
        elif isinstance(node, ast.arg):
            name = node.arg
        elif isinstance(node, (ast.FunctionDef, ast.AsyncFunctionDef, ast.ClassDef)) and node not in methods:
            name = node.name
        if name in imported:
            yield f"{name} in line {node.lineno}"
