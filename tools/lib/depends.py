"""Libraries that crates.txt names for a crate and no file of it says: a crate reaches what stands below the others by
itself."""
import glob
import re
from typing import Iterator

from texts import read


def text_of(top: str, crate: str) -> str:
    """The text of a crate's code, definitions and proofs."""
    paths = sorted(glob.glob(f"{top}/crates/{crate}/*/**/*.rt", recursive=True)
                   + glob.glob(f"{top}/crates/{crate}/*/**/*.antt", recursive=True))
    return "\n".join(read(path) for path in paths if "/out/" not in path)


def unused(top: str) -> Iterator[str]:
    """Yields `CRATE: LIBRARY` for each of them."""
    for line in read(f"{top}/crates.txt").splitlines():
        name, _, libraries = line.partition(":")
        text = text_of(top, name) if libraries and line[0] != "#" else ""
        for library in libraries.split():
            if not re.search(rf"\b(?:Rattle\.{library}\.|{library}::)", text):
                yield f"{name}: {library}"
