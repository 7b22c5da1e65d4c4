"""The plain model of the rules, which stands in tests/ and has no types."""
from __future__ import annotations

from importlib import import_module
from typing import Any

choice: Any = import_module("support.compare.choice")
texts_of_requests: Any = import_module("support.compare.texts")
formats: Any = import_module("support.model.formats")
names: Any = import_module("support.model.names")
rules: Any = import_module("support.model.rules")
tables_of_model: Any = import_module("support.model.tables")
