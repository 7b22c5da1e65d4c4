"""Programs without `.py` as modules, so that their functions are tried without a server."""
import functools
import importlib.machinery
import importlib.util
import os
import sys
from types import ModuleType

from support.places import BIN


@functools.cache
def program_of(name: str) -> ModuleType:
    """A program of server/, or one that is named by its path. It needs `if __name__ == "__main__"` at its end. No
    bytecode is written: it would stand beside the program, where the package would take it along."""
    sys.dont_write_bytecode = True
    path = os.path.join(BIN, name)
    loader = importlib.machinery.SourceFileLoader(os.path.basename(path).replace("-", "_"), path)
    made = importlib.util.module_from_spec(importlib.util.spec_from_loader(loader.name, loader))
    sys.modules[loader.name] = made
    loader.exec_module(made)
    return made
