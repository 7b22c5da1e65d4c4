"""The options of pytest that tests take: which program, how often, how long, and the seed."""
from __future__ import annotations

import random
import re
import zlib

from support.places import built_program


def whole_number(word: str) -> int:
    """A word of the command line that is a number above 0."""
    if not word.isascii() or not word.isdigit() or int(word) == 0:
        raise ValueError("a number above 0 is wanted")
    return int(word)


def share(word: str) -> tuple[int, int]:
    """A word of the command line that is a share, such as the second of four: 2/4, or 6/4."""
    found = re.fullmatch(r"([0-9]+)/([0-9]+)", word)
    if not found or not int(found[2]):
        raise ValueError("a share such as 2/4 is wanted")
    return int(found[1]), int(found[2])


def is_of_share(name: str, which: tuple[int, int] | None) -> bool:
    """Whether what has this name is of this share; not if there is none. It goes by the name alone, so that whatever
    comes beside it moves it into no other."""
    return which is not None and zlib.crc32(name.encode()) % which[1] == which[0] % which[1]


def add_options(parser) -> None:
    group = parser.getgroup("index")
    group.addoption("--program", metavar="PATH", default=built_program(), help="the built program; if not given, the "
                    "proved one, or else the one of `tools/try`")
    group.addoption("--needs", choices=("program", "nothing"), help="only tests that need a program, or only those "
                    "that need none")
    group.addoption("--rounds", type=whole_number, metavar="N", help="how often what is random is tried; each test has "
                    "its own default")
    group.addoption("--seconds", type=whole_number, metavar="N", help="how long a test goes on that could go on for "
                    "ever")
    group.addoption("--step", type=whole_number, metavar="N", default=50, help="of what is tried one by one, such as "
                    "allocations of whole runs, one of so many; 50 if not given")
    group.addoption("--seed", type=int, metavar="N", default=random.randrange(10 ** 6), help="of what is random; "
                    "printed first")
    group.addoption("--volume", action="store_true", help="have each index of the rooms clients, model, program and "
                    "storage keep the bytes of its files in a volume")
    group.addoption("--breaks", action="store_true", help="also make each break in a copy, and run its tests there: "
                    "10 s each")
    group.addoption("--build", action="store_true", help="also build the wrong programs of tests/mutants: some minutes "
                    "each")
    group.addoption("--prove", action="store_true", help="prove the crates with each edit of tests/mutants/programs: "
                    "no clause refuses one")
    group.addoption("--share", type=share, metavar="K/N", help="a share of what --breaks and --build run, and the "
                    "mutants of Python, by turns: each whose place is K, modulo N")
    group.addoption("--alone", action="store_true", help="run each test that is named, whatever its turn is")
    group.addoption("--mutants", type=whole_number, metavar="N", help="also make so many mutants of server/ and "
                    "indexctl/: ten seconds each")
    group.addoption("--mutant-jobs", type=whole_number, metavar="N", default=2, help="so many of them at once; 2 if "
                    "not given")
    group.addoption("--alter", metavar="'PATTERN => TEXT'", help="for a break: pages are altered on their way from the "
                    "index")
    group.addoption("--two-machines", action="store_true", help="also cut the power and the cable of two virtual "
                    "machines: some minutes each")
    group.addoption("--walks", action="store_true", help="also stop `user leave` and `replay` at each step, by each "
                    "signal: some minutes each; with --machine, an upgrade at each too")
    group.addoption("--machine", action="store_true", help="also paste blocks of the pages on a machine that systemd "
                    "started, and stop an upgrade there: some minutes")
    group.addoption("--bare", action="store_true", help="also call the README's two commands on a Debian that has "
                    "nothing: a quarter of an hour")
    group.addoption("--file-systems", metavar="NAMES", default="ext4", help="those whose power is cut: of ext4, xfs "
                    "and btrfs")
