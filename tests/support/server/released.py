"""Releases by tools/release, in a small repository of its own, where tools/build stands for a proof."""
from __future__ import annotations

import functools
import os
import re
import shutil
import sys
import tempfile
from subprocess import CompletedProcess

from releases import COMMAND
from support.places import TOP
from support.running import run_command, write_below
from support.server.stand_ins import written

VERSION, TAG, WHO = "9.8.7", "v9.8.7", ["-c", "user.name=ann", "-c", "user.email=ann@example.org"]
# a heading, a link, a line that is too long for a tag, and a section that is older
CHANGELOG = """# Changelog

## 9.8.7, {day}

### Added

- The first ([PAGE](docs/PAGE.md#top) says which).
- {long}

## 9.8.6, 1 January 2030

- The one before.
"""
LONG = "one two three four five six seven eight nine ten eleven twelve thirteen fourteen"
TEXT = """index 9.8.7

Added
- The first (PAGE says which).
- one two three four five six seven eight nine ten eleven twelve
  thirteen fourteen
"""
# A program that tells the constant, and else its use.
PROGRAM = r"""#include <stdio.h>
#include <string.h>
int main(int count, char **words) {
    int tells = count > 1 && !strcmp(words[1], "--version");
    return puts(tells ? "index " VERSION : "Usage: index\n\nOptions:\n  --version  tells the version") < 0;
}
"""
BUILD = r"""#!/bin/sh
cd "$(dirname "$0")/.." && mkdir -p crates/index/out
version=$(sed -n 's/^const VERSION: &str = \(".*"\);$/\1/p' crates/index_args/src/command.rt)
cc -DVERSION="$version" -o crates/index/out/index tools/program.c
"""

# in the place of the kit's command, which proves and builds as the gate does; it may make a folder meanwhile
RT = BUILD.replace('cd "$(dirname "$0")/.."', 'test "$*" = ci && test -z "$RT_FAILS" && touch "$RT_CALLED" && '
                   'mkdir -p "${RT_MAKES:-.}"')


class Repository:
    """A repository with what tools/release needs, and a few commands of server/."""

    def __init__(self, folder: str) -> None:
        self.top = folder
        for name in ("server", "indexctl", "tests/support", "tools", "docs"):
            shutil.copytree(f"{TOP}/{name}", f"{folder}/{name}")
        for name in os.listdir(f"{folder}/server/bin"):
            if name != "index-alarm":
                os.remove(f"{folder}/server/bin/{name}")
        for name in ("LICENSE", "crates.txt"):
            shutil.copy(f"{TOP}/{name}", folder)
        self.put("tools/build", BUILD)
        self.put("tools/program.c", PROGRAM)
        self.put("CHANGELOG.md", CHANGELOG.format(day="2 January 2030", long=LONG))
        with open(f"{TOP}/{COMMAND}") as kept:
            self.put(COMMAND, re.sub(r'(const VERSION: &str = ")\S+', rf"\g<1>{VERSION}", kept.read()))
        self.put(".gitignore", "out/\n__pycache__/\n")
        self.git("init", "--quiet")
        self.commit = self.committed()

    def put(self, path: str, text: str) -> None:
        write_below(self.top, path, text)

    def git(self, *words: str) -> str:
        ended = run_command(["git", "-C", self.top, *WHO, *words], GIT_COMMITTER_DATE="2030-01-02T03:04:05Z")
        if ended.returncode:
            raise SystemExit(f"git {' '.join(words)} ended with {ended.stdout}")
        return ended.stdout.strip()

    def committed(self) -> str:
        """The commit of what is there now."""
        self.git("add", "--all")
        self.git("commit", "--quiet", "--allow-empty", "--message", "a change")
        return self.git("rev-parse", "HEAD")

    def release(self, out: str, *words: str, **more: str) -> CompletedProcess:
        command = [sys.executable, f"{self.top}/tools/release", "--out", out]
        return run_command([*command, *words], 500, **more)


class Releases:
    """A release of a repository, again from its tag, and what is refused. Each step is taken once, in this order."""

    def __init__(self, folder: str) -> None:
        self.folder, self.out, self.none = folder, f"{folder}/first", f"{folder}/none"
        self.repository = Repository(f"{folder}/index")
        self.commit = self.repository.commit

    @functools.cached_property
    def made(self) -> CompletedProcess:
        """The first release."""
        return self.repository.release(self.out, VERSION)

    @functools.cached_property
    def again(self) -> CompletedProcess:
        """The release made again from its tag, when something else is there and the tree is another."""
        command = self.made.stdout.splitlines()[-1].split()[1:]
        self.repository.git(*(command if written(f"{self.out}/{TAG}.txt") else ("tag", TAG)))
        self.repository.put("docs/LATER.md", "later\n")
        self.repository.put(COMMAND, "later\n")
        self.repository.committed()
        return self.repository.release(f"{self.folder}/again", VERSION, TAG, TZ="Asia/Tokyo")

    @functools.cached_property
    def checked(self) -> CompletedProcess:
        """The lines of tools/README that check a release, in a clone with its tag, where the kit is not to be found."""
        assert self.again
        clone, page = f"{self.folder}/clone", written(f"{TOP}/tools/README.md")
        self.repository.git("clone", "--quiet", self.repository.top, clone)
        lines, = re.findall(r"^```sh\n(.*?)^```$", page, re.M | re.S)
        lines = re.sub(r"\d+\.\d+\.\d+", VERSION, lines)
        lines = lines.replace("FOLDER", self.out).replace("../again", f"{self.folder}/checked")
        words = ["sh", "-ec", f'cd "$1"\n{lines}', "sh", clone]
        return run_command(words, 500, PATH="/usr/sbin:/usr/bin:/sbin:/bin")

    @functools.cached_property
    def refused(self) -> dict:
        """What is no release, by what is wrong with it."""
        assert self.checked
        repository, seen = self.repository, {}
        seen["a tag that is there"] = repository.release(self.none, VERSION)
        repository.git("tag", "--delete", TAG)
        repository.git("reset", "--hard", "--quiet", self.commit)
        seen["no section"] = repository.release(self.none, "9.8.8")
        seen["another constant"] = repository.release(self.none, "9.8.6")
        repository.put("CHANGELOG.md", CHANGELOG.format(day="not yet released", long=LONG))
        seen["changes"] = repository.release(self.none, VERSION)
        repository.committed()
        seen["not yet released"] = repository.release(self.none, VERSION)
        seen["another commit"] = repository.release(self.none, VERSION, self.commit, "--program", "/bin/true")
        seen["a folder that is there"] = repository.release(self.folder, VERSION, self.commit)
        seen["made"] = os.path.exists(self.none)
        return seen

    @functools.cached_property
    def of_a_program(self) -> CompletedProcess:
        """A release of a program that is built."""
        assert self.refused
        program = f"{self.out}/index-{VERSION}-amd64"
        return self.repository.release(f"{self.folder}/built", VERSION, self.commit, "--program", program)

    @functools.cached_property
    def of_the_gate(self) -> CompletedProcess:
        """A release of a program that the gate's command proves, which leaves a mark."""
        assert self.of_a_program
        write_below(self.folder, "bin/rt", RT)
        os.chmod(f"{self.folder}/bin/rt", 0o755)
        setting = {"PATH": f"{self.folder}/bin:{os.environ['PATH']}", "RT_CALLED": f"{self.folder}/called"}
        words, taken = (VERSION, self.commit, "--gate"), f"{self.folder}/taken"
        self.refused["a proof that fails"] = self.repository.release(self.none, *words, RT_FAILS="yes", **setting)
        self.refused["a folder made meanwhile"] = self.repository.release(taken, *words, RT_MAKES=taken, **setting)
        return self.repository.release(f"{self.folder}/gate", *words, **setting)

    @functools.cached_property
    def keys(self) -> str:
        """A folder of gpg's with a key."""
        # (of its agent's socket the path is short)
        made = tempfile.mkdtemp()
        words = ["gpg", "--batch", "--passphrase", "", "--quick-generate-key", "ann@example.org", "ed25519", "sign"]
        ended = run_command(words, GNUPGHOME=made)
        if ended.returncode:
            raise SystemExit(ended.stdout)
        return made

    @functools.cached_property
    def signed(self) -> CompletedProcess:
        """A release that is signed."""
        assert self.of_the_gate
        words = VERSION, self.commit, "--program", f"{self.out}/index-{VERSION}-amd64", "--sign"
        self.refused["a key that is not there"] = self.repository.release(self.none, *words, "nobody@example.org",
                                                                          GNUPGHOME=self.keys)
        return self.repository.release(f"{self.folder}/signed", *words, "ann@example.org", GNUPGHOME=self.keys)

    def end(self) -> None:
        """Ends gpg's agent, which goes on by itself, and removes its keys."""
        if "keys" in self.__dict__:
            run_command(["gpgconf", "--kill", "all"], GNUPGHOME=self.keys)
            shutil.rmtree(self.keys, ignore_errors=True)

    def sums(self, name: str) -> str:
        return written(f"{self.folder}/{name}/SHA256SUMS")
