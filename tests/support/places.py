"""Where things stand in the repository."""
import os
import sys

TOP = os.path.dirname(os.path.dirname(os.path.dirname(os.path.abspath(__file__))))
# the program as `tools/build` proves and builds it, and as `tools/try` builds it without a proof
PROGRAM, UNPROVED = f"{TOP}/crates/index/out/index", f"{TOP}/crates/index/try/index"
SERVER, BIN, NGINX = f"{TOP}/server", f"{TOP}/server/bin", f"{TOP}/server/nginx"
# the words of `indexctl`, by this Python and with nothing but its standard library
INDEXCTL = [sys.executable, "-S", f"{TOP}/indexctl"]


def is_program(path: str) -> bool:
    """Whether a file is there that can be run."""
    return os.path.isfile(path) and os.access(path, os.X_OK)


def built_program() -> str:
    """The proved program, or else the one that `tools/try` made; where the proved one would be if neither is there."""
    return next(filter(is_program, (PROGRAM, UNPROVED)), PROGRAM)
