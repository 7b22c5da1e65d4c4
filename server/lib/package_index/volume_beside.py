"""A volume that is put beside a copied database, from that of the copy."""
from __future__ import annotations

import os
from typing import Tuple

from package_index.carried import carry_tested
from package_index.database import VOLUME
from package_index.disk import is_there
from package_index.ends import Refused
from package_index.long_work import long_work
from package_index.volume import bodies_in, end_of, path_of_volume, tables_of, volume


def volume_bytes(db: str) -> int:
    """How many bytes the volume of a database takes on its disk, at most; 0 if it has none."""
    return os.stat(db + VOLUME).st_blocks * 512 if is_there(db + VOLUME) else 0


def put_volume_beside(copy: str, made: str) -> Tuple[str, str]:
    """Copies the volume of COPY beside the database that was made of it, up to its last place, and refuses one in which
    a file has other bytes. Returns words by which index-verify reads none of them again."""
    source = path_of_volume(copy)
    with tables_of(made) as tables:
        end = end_of(tables)
        with long_work(f"copying and testing {source}", end, lambda: volume_bytes(made)):
            with volume(source) as whole, volume(made + VOLUME, os.O_RDWR | os.O_CREAT | os.O_EXCL) as target:
                wrong = carry_tested(whole, target, bodies_in(tables), end)
    if wrong:
        raise Refused(f"{source} is not the volume of {copy}, or was damaged: {wrong} has other bytes there")
    return "--since", made
