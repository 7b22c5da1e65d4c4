"""Help and the version, asked for by a word as well as by an option."""
from __future__ import annotations

import argparse
import json

from indexctl.about import VERSION
from indexctl.command_line import argument, command, parsed
from indexctl.commands.arguments import JSON
from indexctl.terminal import put


@command("help",
         argument("words", nargs="*", metavar="COMMAND", help="such as `release yank`"))
def help_of(args: argparse.Namespace) -> None:
    parsed([*args.words, "--help"])


@command("version", JSON)
def version(args: argparse.Namespace) -> None:
    """`indexctl doctor` compares it with that of the index."""
    put(json.dumps({"version": VERSION}) if args.json else f"indexctl {VERSION}")
