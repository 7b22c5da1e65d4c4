"""The examples of docs/reference/HTTP.md, pasted one after the other, get the replies that the page shows."""
from __future__ import annotations

import os
import re
import subprocess

from support.needed import want_command
from support.places import TOP
from support.ports import free_port

EXAMPLE = re.compile(r"```sh\n(.*?)```\n(?:\n```\n(.*?)```\n)?", re.S)
PATIENCE = 60


def examples() -> list[tuple[str, str]]:
    """The commands of each example, and what the page shows below them."""
    with open(f"{TOP}/docs/reference/HTTP.md", encoding="utf-8") as page:
        return EXAMPLE.findall(page.read())


def in_one_line(text: str) -> str:
    """A text without its ends of lines: an answer has none, and the page gives each a line of its own."""
    return text.replace("\r", "").replace("\n", "")


def test_the_examples_of_the_page_get_the_replies_that_it_shows(program, folder, looked):
    want_command("curl", "curl")
    os.mkdir(f"{folder}/bin")
    os.symlink(program, f"{folder}/bin/index")
    port = free_port()
    settings = {"cwd": folder, "env": {**os.environ, "PATH": f"{folder}/bin:{os.environ['PATH']}"}, "text": True,
                "stdout": subprocess.PIPE}

    def pasted(text: str) -> str:
        return subprocess.run(["bash", "-c", text.replace(":8080", f":{port}")], timeout=PATIENCE, check=True,
                              stderr=subprocess.DEVNULL, **settings).stdout

    (made, _), *others = examples()
    init, serve = made.strip().splitlines()
    looked(pasted(init) == "created\n", init)
    words = serve.removesuffix(" &").replace(":8080", f":{port}")
    with subprocess.Popen(["bash", "-c", f"exec {words}"], **settings) as serving:
        try:
            looked(serving.stdout.readline() == f"listening on 127.0.0.1:{port}\n", serve)
            for commands, shown in others:
                said = pasted(commands)
                looked(shown and in_one_line(said) == in_one_line(shown), commands, said, shown)
        finally:
            serving.terminate()
    looked(len(others) == 4, others)
