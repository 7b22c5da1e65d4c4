"""Addresses of an index that a program is given."""
from __future__ import annotations

import argparse
import urllib.parse


def http_address(word: str) -> str:
    """A word of the command line that is an address, such as http://127.0.0.1:8080."""
    parts = urllib.parse.urlsplit(word)
    try:
        is_well = parts.scheme in ("http", "https") and bool(parts.hostname) and parts.port != 0
    except ValueError:
        # the port is no number, or above 65535
        is_well = False
    if not is_well:
        raise argparse.ArgumentTypeError(f"{word} is not an address such as http://127.0.0.1:8080")
    return word
