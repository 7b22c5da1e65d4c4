"""wrk (Debian's package of that name), which asks for one address as often as it can, each time on a new connection."""
from __future__ import annotations

import re
import shutil
import subprocess

from support.serving import JSON_PAGE

CONNECTIONS = 4
# a rate is not one if a request failed
FAILED = re.compile(r"Non-2xx|(?:connect|read|write|timeout) [1-9]")


def want_wrk() -> None:
    """Ends the run if wrk is missing."""
    if not shutil.which("wrk"):
        raise SystemExit("wrk is not installed: package wrk of Debian has it")


def output_of(words: list[str], seconds: int) -> str:
    ended = subprocess.run(words, stdout=subprocess.PIPE, stderr=subprocess.STDOUT, timeout=seconds + 30, text=True)
    return ended.stdout


def version() -> str:
    found = re.search(r"wrk (\S+)", output_of(["wrk", "-v"], 0))
    return f"wrk {found[1] if found else 'unknown'} with {CONNECTIONS} connections"


def rate(url: str, seconds: int, encoding: str = "identity") -> float:
    """The requests a second at this address, in this encoding. The run ends if one of them failed."""
    words = ["wrk", "-t", "1", "-c", str(CONNECTIONS), "-d", f"{seconds}s", "-H", "Connection: close"]
    words += ["-H", f"Accept: {JSON_PAGE}", "-H", f"Accept-Encoding: {encoding}"]
    output = output_of([*words, url], seconds)
    found = re.search(r"Requests/sec:\s+([\d.]+)", output)
    if FAILED.search(output) or not found:
        raise SystemExit(f"bench: requests failed:\n{output}")
    return float(found[1])
