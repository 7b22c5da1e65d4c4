"""Tokens and profiles."""
from __future__ import annotations

import argparse
import getpass
import json
import re
import secrets
import sys

from indexctl.command_line import command
from indexctl.commands.arguments import JSON
from indexctl.ends import WRONG, Stop
from indexctl.names import sha256
from indexctl.settings import TOKEN, read_profiles, without_password
from indexctl.terminal import listing, put, texts


@command("token new", JSON)
def token_new(args: argparse.Namespace) -> None:
    """Keep the token yourself, in a file of mode 0600. Give the office the digest alone."""
    token = secrets.token_hex(32)
    if args.json:
        put(json.dumps({"token": token, "digest": sha256(token)}))
    else:
        put(f"token   {token}\ndigest  {sha256(token)}")


@command("token digest", JSON)
def token_digest(args: argparse.Namespace) -> None:
    """The token is never a word of a command, since other users of the machine see those."""
    try:
        token = (getpass.getpass("token: ") if sys.stdin.isatty() else sys.stdin.read()).strip()
    except (EOFError, UnicodeDecodeError):
        token = ""
    if not re.fullmatch(TOKEN, token):
        raise Stop(WRONG, "Type or pipe in one line of plain characters, which is the token.")
    put(json.dumps({"digest": sha256(token)}) if args.json else sha256(token))


@command("profile", JSON)
def profile(args: argparse.Namespace) -> None:
    """A profile is a section of that file:

    [default]
    url = https://packages.example
    token-file = ~/.config/index-token
    record = ~/index-record.jsonl

    Further keys are `ca`, and `user` with `password-file` for the proxy."""
    rows = [{"profile": name, **values, "url": without_password(values.get("url", ""))}
            for name, values in read_profiles().items()]
    listing(args, rows, texts("profile", "url", "token-file", "record"))
