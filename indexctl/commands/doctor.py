"""Doctor: what may keep a person from an index."""
from __future__ import annotations

import argparse

from indexctl.command_line import command
from indexctl.commands.arguments import JSON
from indexctl.doctor import WRONG, findings
from indexctl.ends import REFUSED
from indexctl.terminal import listing, texts


@command("doctor", JSON)
def doctor(args: argparse.Namespace) -> int:
    """It looks at the address, the proxy, the host, the certificate and its days, the answer, your clock, your token,
    the version of indexctl, and the record. Nothing is changed by it. The status is 1 if something is wrong."""
    args.again = min(args.again, 1)
    found = list(findings(args))
    listing(args, found, texts("what", "state", "found", "do"))
    return REFUSED if any(it.state == WRONG for it in found) else 0
