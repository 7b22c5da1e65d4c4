"""What tools/check-style finds in Python by rules of its own."""
import ast

import pytest
from python_rules import mutable_defaults, shadowed_imports

IMPORTS = "import json\nimport os.path as where\nfrom collections import deque\n"


@pytest.mark.parametrize("default", [
    "[]", "{}", "{1}", "[it for it in ()]", "{it: it for it in ()}", "{it for it in ()}", "list()", "dict()", "set()",
    "bytearray()", "defaultdict(list)", "collections.defaultdict(list)", "deque()", "Counter()"])
@pytest.mark.parametrize("text", [
    "def f(x={}): pass", "def f(*, x={}): pass", "async def f(x={}): pass", "f = lambda x={}: x"])
def test_a_mutable_default_is_found(default, text):
    assert list(mutable_defaults(ast.parse("\n" + text.replace("{}", default)))) == [2]


@pytest.mark.parametrize("default", ["()", "None", "1", "'a'", "frozenset()", "tuple([])", "NAME"])
def test_a_default_that_no_call_changes_is_no_fault(default):
    assert not list(mutable_defaults(ast.parse(f"def f(x={default}, *, y={default}): return [x, {{}}]")))


@pytest.mark.parametrize("name, text", [
    ("json", "json = 1"), ("where", "for where in (): pass"), ("deque", "def f(deque): pass"),
    ("json", "def f(*json): pass"), ("json", "def f(**json): pass"), ("json", "def f(): json = 1"),
    ("json", "def json(): pass"), ("json", "class json: pass"), ("json", "f = lambda json: json"),
    ("json", "[json for json in ()]"), ("json", "with open(where) as json: pass"), ("json", "print(json := 1)"),
    ("where", "def f():\n    def where(): pass")])
def test_a_name_that_hides_an_import_is_found(name, text):
    found, = shadowed_imports(ast.parse(IMPORTS + text))
    assert found.startswith(f"{name} in line ")


@pytest.mark.parametrize("text", [
    "class Some:\n    def json(self): return json", "path = where.join('a')", "def f(path): return path", "json.x = 1"])
def test_what_hides_no_import_is_no_fault(text):
    assert not list(shadowed_imports(ast.parse(IMPORTS + text)))
