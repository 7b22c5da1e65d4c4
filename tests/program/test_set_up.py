"""A user whose Python has no pytest runs the tests: pip gets it from an index, here the program itself."""
from __future__ import annotations

import os
import subprocess
import sys

import pytest
from support.debian_wheels import upload_all
from support.inner_runs import copy_rooms
from support.needed import want_module
from support.planted import catches
from support.running import write_below

# what `tests/run` does first, where Debian's Python has no pytest either
SCRIPT = """import os, sys
sys.path[:0] = ["tests", "tools/lib"]
from support import set_up
set_up.DEBIAN = sys.executable
set_up.go_on_by_a_python_with_pytest(os.path.abspath("goes_on.py"))
"""
# (in a folder of its own: of what other runs left pytest tells behind its last line)
GOES_ON = """import sys, pytest
print("goes on by", sys.executable, flush=True)
sys.exit(pytest.main(["-q", "-n", "2", "--basetemp", "tests/out/inner", "tests/program/test_unit_seed.py"]))
"""


def run(copy: str, url: str) -> subprocess.CompletedProcess:
    kept = {name: value for name, value in os.environ.items() if name[:4] not in ("PIP_", "PYTE", "PYTH")}
    return subprocess.run([f"{copy}/bare/bin/python", "-B", "script.py"], cwd=copy, text=True, timeout=400,
                          stdin=subprocess.DEVNULL, stdout=subprocess.PIPE, stderr=subprocess.STDOUT,
                          env={**kept, "HOME": copy, "PIP_CONFIG_FILE": os.devnull, "PIP_INDEX_URL": url,
                               "PIP_NO_CACHE_DIR": "1", "PATH": f"{copy}/bare/bin:{os.environ['PATH']}"})


@catches("tests/support/set_up.py", '"-m", "venv", "--clear", OWN]', '"-m", "venv", "--without-pip", OWN]')
@pytest.mark.slow
@pytest.mark.timeout(900)
def test_a_user_without_pytest_gets_it_by_pip_once(index, tmp_path, looked):
    want_module("ensurepip", "python3-venv")
    url = upload_all(index, str(tmp_path))
    copy = copy_rooms(f"{tmp_path}/copy")
    subprocess.run([sys.executable, "-m", "venv", "--without-pip", f"{copy}/bare"], check=True)
    write_below(copy, "script.py", SCRIPT)
    write_below(copy, "goes_on.py", GOES_ON)
    first, again = (run(copy, url) for url in (url, "http://127.0.0.1:1/"))
    for ended in (first, again):
        lines = ended.stdout.splitlines()
        looked(ended.returncode == 0 and lines[-1].endswith(" passed, 0 failed"), ended.stdout)
        looked(f"goes on by {copy}/tests/out/venv/bin/python" in lines, ended.stdout)
    looked("getting what tests/requirements.txt names .." in first.stdout, first.stdout)
    looked("the tests need pytest" not in again.stdout, again.stdout)
