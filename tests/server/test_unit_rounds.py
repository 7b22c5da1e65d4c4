"""The units of an index ask for as many connections as there can be: it starts anew for an upgrade alone."""
import re
import shlex

import pytest
from support.places import SERVER

UNITS = "index.service", "other-host.conf"


def command_of(name):
    """The words that the unit starts, those of the last ExecStart=."""
    with open(f"{SERVER}/systemd/{name}") as unit:
        started = re.findall(r"^ExecStart=((?:.*\\\n)*.*)$", unit.read(), re.M)[-1]
    return shlex.split(started.replace("\\\n", " "))


def number_behind(words, option):
    return int(words[words.index(option) + 1])


@pytest.mark.parametrize("name", UNITS)
def test_a_unit_serves_a_million_million_connections(name):
    words = command_of(name)
    assert number_behind(words, "--requests") * number_behind(words, "--rounds") == 10 ** 12, words
