#!/usr/bin/python3
"""Makes a manual page of each command in a folder, from what it says of itself: manuals.py VERSION COMMANDS PAGES."""
from __future__ import annotations

import os
import re
import subprocess
import sys

SUBCOMMANDS = ("init", "serve", "apply", "report", "check")


def said(*words: str) -> str:
    """What a command prints."""
    return subprocess.run(words, check=True, stdout=subprocess.PIPE, stdin=subprocess.DEVNULL, text=True).stdout.strip()


def purpose(name: str, text: str) -> str:
    """What a command does, by its help: the first sentence, without the command as in `index-alarm UNIT: tells ..`."""
    paragraphs = text.split("\n\n")
    first = " ".join(paragraphs[1 if text.startswith("usage:") else 0].split()).split(". ")[0].rstrip(".")
    return re.sub(rf"{re.escape(name)}(?: [A-Z\[-].*?: |: | )", "", first, count=1)


def write(path: str, text: str) -> str:
    with open(path, "w", encoding="utf-8") as made:
        made.write(text)
    return path


def manual(version: str, command: str, pages: str) -> None:
    """One page. That of the program has the help of its subcommands too."""
    name, more = os.path.basename(command), []
    what = "serves a Python package index" if name == "index" else purpose(name, said(command, "--help"))
    if name == "index":
        inside = "".join(f"[{it} OF INDEX]\n.nf\n{said(command, 'help', it)}\n.fi\n\n" for it in SUBCOMMANDS)
        more = ["--include", write("made/subcommands", inside)]
    words = ["--no-info", "--no-discard-stderr", "--version-string", version, "--name", what, *more, command]
    text = said("help2man", *words)
    write(f"{pages}/{name}.1", f"{text}\n")


def main() -> None:
    version, commands, pages = sys.argv[1:]
    for name in sorted(os.listdir(commands)):
        manual(version, f"{commands}/{name}", pages)


if __name__ == "__main__":
    main()
