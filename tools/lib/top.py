"""Where the repository and its built program are."""
import os

TOP = os.path.dirname(os.path.dirname(os.path.dirname(os.path.abspath(__file__))))
PROGRAM = f"{TOP}/crates/index/out/index"


def files_below(room: str) -> list[str]:
    """The paths of the files of a room, from the top of the repository: none that is built, and none that begins with a
    dot, such as the lock of an editor, which leads nowhere."""
    found: list[str] = []
    for folder, inner, names in os.walk(f"{TOP}/{room}"):
        inner[:] = sorted(it for it in inner if it not in ("out", "try", "__pycache__") and it[0] != ".")
        found += [os.path.relpath(f"{folder}/{it}", TOP) for it in sorted(names) if it[0] != "."]
    return found
