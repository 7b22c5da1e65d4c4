"""The order of releases (PEP 440)."""
from __future__ import annotations

import re
from typing import Any, List, Tuple

PRE = {"a": "a", "alpha": "a", "b": "b", "beta": "b", "c": "rc", "rc": "rc", "pre": "rc", "preview": "rc"}
VERSION = re.compile(r"v?(?:(\d+)!)?(\d+(?:\.\d+)*)(?:[._]?(a|b|c|rc|alpha|beta|pre|preview)[._]?(\d*))?"
                     r"([._]?(?:post|rev|r)[._]?(\d*))?([._]?dev[._]?(\d*))?(?:\+([a-z0-9]+(?:[._][a-z0-9]+)*))?")
LEAST, MOST = (0,), (2,)


def order(release: str) -> Tuple[Any, ...]:
    """By this key releases come from the oldest to the newest. What is not a version comes first, by its text."""
    found = VERSION.fullmatch(release.lower())
    if not found:
        return 0, release
    epoch, numbers, pre, pre_number, post, post_number, dev, dev_number, local = found.groups()
    parts = tuple(int(it) for it in re.sub(r"(?:\.0+)*$", "", numbers).split("."))
    is_dev_alone = dev and not pre and not post
    first = (1, PRE[pre], int(pre_number or 0)) if pre else LEAST if is_dev_alone else MOST
    return (1, int(epoch or 0), parts, first, (1, int(post_number or 0)) if post else LEAST,
            (1, int(dev_number or 0)) if dev else MOST, local_order(local), release)


def is_release(release: str) -> bool:
    """Whether this is a version, which installers take into account."""
    return VERSION.fullmatch(release.lower()) is not None


def is_final(release: str) -> bool:
    """Whether this is a version, and neither a pre-release nor one of development."""
    found = VERSION.fullmatch(release.lower())
    return found is not None and not found[3] and not found[7]


def numbers_of(release: str) -> List[str]:
    """The numbers of the dev, the post and the pre part of a version, of those that it has."""
    found = VERSION.fullmatch(release.lower())
    return [it for it in (found[8], found[6], found[4]) if it] if found else []


def local_order(local: str) -> Tuple[Any, ...]:
    """The order of what stands behind `+`: none comes first, and a number comes after a word."""
    pieces = re.split(r"[._]", local) if local else []
    return tuple((1, int(it), "") if it.isdigit() else (0, 0, it) for it in pieces)
