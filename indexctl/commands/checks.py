"""Which index is asked, and as whom."""
from __future__ import annotations

import argparse

from indexctl.changes import Desk
from indexctl.command_line import command
from indexctl.commands.arguments import JSON
from indexctl.ends import REFUSED
from indexctl.terminal import listing, texts


@command("token check", JSON)
def token_check(args: argparse.Namespace) -> int:
    """Nothing is changed by it."""
    desk = Desk(args)
    caller = desk.caller()
    row = {"url": desk.setting.url, "from": desk.setting.place, "token": desk.setting.source, "caller": caller}
    listing(args, [row], texts("url", "from", "token", "caller"))
    return REFUSED if caller == "nobody" else 0
