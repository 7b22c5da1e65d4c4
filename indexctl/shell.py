"""The manual page, made of the commands as `command_line` has them."""
from __future__ import annotations

import argparse
import re
from typing import List

from indexctl.about import ABOUT, AGAIN, ENVIRONMENT, FILES, STATUSES, VERSION
from indexctl.command_line import ALIASES, Command, command, load, more_text, parsers, sentence
from indexctl.terminal import put


def roff(text: str) -> str:
    """A text as a line or lines of a manual page."""
    text = re.sub(r"\s+", " ", text).replace("\\", "\\e").replace("-", "\\-")
    text = re.sub("`([^`]*)`", r"\\fB\1\\fR", text)
    return f"\\&{text}" if text[:1] in (".", "'") else text


def roff_body(text: str) -> List[str]:
    """Paragraphs, of which those that are indented, and lines of a file of settings, stand as they are."""
    parts: List[str] = []
    for part in re.split(r"\n\s*\n", text):
        if part.startswith(("    ", "[")):
            parts += [".PP", ".nf", *(roff(line.strip()) for line in part.split("\n")), ".fi"]
        elif part:
            parts += [".PP", roff(part)]
    return parts


def manual_of(it: Command, parser: argparse.ArgumentParser) -> List[str]:
    """The part of the manual page on one command."""
    usage = re.sub(r"usage: |\[-h\] |\[--profile NAME\] \[--again N\] ", "", re.sub(r"\s+", " ", parser.format_usage()))
    lines = [".SS", roff(usage.strip()), roff(sentence(it.summary)), *roff_body(more_text(it.function))]
    for alias in (alias for alias, path in ALIASES.items() if path == it.path):
        lines += [".PP", roff(f"`indexctl {alias}` is the same.")]
    for given in it.arguments:
        if "help" in given.settings:
            head = [*(given.names[-1:] if given.is_option else ()), given.settings.get("metavar", "")]
            lines += [".TP", f".B {roff(' '.join(filter(None, head)))}", roff(f"{given.settings['help']}.")]
    return lines


@command("man")
def man(args: argparse.Namespace) -> None:
    """Read it by `indexctl man | man -l -`, or put it into /usr/local/share/man/man1/indexctl.1."""
    commands = load()
    made = parsers(commands)[1]
    lines = [f'.TH INDEXCTL 1 "" "indexctl {VERSION}" "Python package index"', ".SH NAME",
             "indexctl \\- asks a Python package index for what its owners and its office need",
             ".SH SYNOPSIS", ".B indexctl", "\\fINOUN VERB\\fR [\\fIOPTION\\fR ...] \\fIWORD\\fR ...",
             ".SH DESCRIPTION", roff(ABOUT), ".SH OPTIONS", "Each command that asks the index takes these.",
             ".TP", ".B \\-\\-profile NAME", "the index of this profile.",
             ".TP", ".B \\-\\-again N", f"{roff(AGAIN)}.", ".SH COMMANDS"]
    for it in commands:
        lines += manual_of(it, made[it.path])
    for title, pairs in (("ENVIRONMENT", ENVIRONMENT), ("FILES", FILES), ("EXIT STATUS", STATUSES)):
        lines += [f".SH {title}"]
        lines += [line for head, text in pairs for line in (".TP", f".B {roff(head)}", f"{roff(text)}.")]
    put("\n".join(lines))
