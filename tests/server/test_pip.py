"""pip over TLS, as a user of the index has it: the command in PIP, else `python3 -m pip`."""
import os
import shlex

import pytest
from support.running import run_command
from support.server.expected import assert_ends

PIP = shlex.split(os.environ.get("PIP", "python3 -m pip"))


@pytest.fixture
def options(filled_index, front, folder):
    return ["--isolated", "--disable-pip-version-check", "--no-input", "--retries", "0", "--cert", front.certificate,
            "--cache-dir", f"{folder}/pip", "--index-url", f"{front.url}/simple/"]


@pytest.mark.slow
def test_pip_downloads_a_file_once_and_keeps_it(options, folder):
    download = [*PIP, "download", *options, "--no-deps", "frob==1.0", "-d"]
    assert_ends(run_command([*download, f"{folder}/first"]), 0, "Downloading", "frob-1.0-py3-none-any.whl")
    assert_ends(run_command([*download, f"{folder}/second"]), 0, "Using cached")


def test_what_pip_installs_runs_with_what_it_needs(options, folder):
    to = f"{folder}/installed"
    assert_ends(run_command([*PIP, "install", *options, "--target", to, "spam-nest==1.0+fix.1"]), 0)
    ended = run_command(["python3", "-c", "import spam_nest; print(spam_nest.FROB)"], PYTHONPATH=to)
    assert_ends(ended, 0, "1.1\n")
