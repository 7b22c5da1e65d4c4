"""What tools/try ends if it is ended, and the lines that it prints last. A script stands for the program."""
from __future__ import annotations

import os
import runpy
import shlex
import shutil
import signal
import subprocess
import sys
from pathlib import Path

import pytest
from support.places import TOP
from support.planted import catches
from support.programs import program_of
from support.running import goes_on as runs
from support.running import write_below
from support.server.waits import wait_for

# it serves nobody, so a client goes on to ask
PROGRAM = """#!/bin/sh
[ "$1" = serve ] || exit 0
echo $$ > '{folder}/serves'
echo listening on 127.0.0.1:1
exec sleep 60
"""


@pytest.fixture
def clone(tmp_path: Path) -> Path:
    """A clone with a program that is built, in a path with a blank."""
    made = tmp_path / "a clone"
    for room in ("tools", "tests/support", "indexctl", "server/lib"):
        shutil.copytree(f"{TOP}/{room}", made / room, ignore=shutil.ignore_patterns("__pycache__"))
    program = made / "crates/index/out/index"
    program.parent.mkdir(parents=True)
    program.write_text(PROGRAM.format(folder=tmp_path))
    program.chmod(0o755)
    return made


@catches("tools/try", "signal.signal(it, signal.default_int_handler)", "pass", case="TERM")
@pytest.mark.parametrize("name", ["INT", "TERM", "HUP"])
def test_a_trial_that_is_ended_serves_no_longer(clone, name):
    words, serves = [sys.executable, f"{clone}/tools/try"], clone.parent / "serves"
    with subprocess.Popen(words, stdout=subprocess.PIPE, stderr=subprocess.PIPE, text=True) as command:
        assert wait_for(lambda: serves.exists() and serves.read_text(), 60)
        command.send_signal(signal.Signals[f"SIG{name}"])
        _, wrong = command.communicate(timeout=60)
    assert wait_for(lambda: not runs(int(serves.read_text())), 10)
    assert command.returncode == 130 and wrong.strip().startswith("interrupted: what is built is kept")


@catches("tools/try", "with held():", "if True:")
def test_a_signal_that_comes_as_the_server_starts_ends_it(clone, monkeypatch):
    trial, started = program_of(f"{TOP}/tools/try"), []

    class Starts(subprocess.Popen):
        def __init__(self, *words, **more):
            super().__init__(*words, **more)
            started.append(self)
            os.kill(os.getpid(), signal.SIGINT)

    monkeypatch.setattr(trial.subprocess, "Popen", Starts)
    with pytest.raises(KeyboardInterrupt), trial.served(clone / "crates/index/out/index", Path("index.db")):
        pass
    assert [it.poll() is not None for it in started] == [True]


@catches("tools/try", "if is_whole and not is_new:", "if False:")
@pytest.mark.parametrize("words, whole, goes_on, said", [
    ([], True, True, "has the index of an earlier call, and goes on with it; --new makes another"),
    (["--new"], True, False, "which an earlier call has made"),
    ([], False, False, "which a call left that was cut off")])
def test_a_trial_goes_on_with_an_earlier_index_or_says_what_it_removes(tmp_path, capsys, words, whole, goes_on, said):
    trial, folder = program_of(f"{TOP}/tools/try"), tmp_path / "a trial"
    for path in (".made-by-tools-try", "index.db", *(["installed/frob.py"] if whole else [])):
        write_below(folder, path, "kept")
    assert trial.goes_on(folder, is_new=bool(words)) == goes_on
    assert (folder / "index.db").exists() == goes_on and (folder / ".made-by-tools-try").exists()
    out = capsys.readouterr().out
    assert said in out and str(folder) in out
    assert trial.goes_on(tmp_path / "another", is_new=False) is False and capsys.readouterr().out == ""


@catches("tools/try", '''python3 {short(TOP / 'indexctl')}"''', 'python3 -m indexctl"')
@catches("tools/try", "return shlex.quote(os.path.relpath(path))", "return os.path.relpath(path)")
def test_the_last_lines_hold_in_the_folder_where_the_trial_was_called(monkeypatch, tmp_path):
    monkeypatch.chdir(tmp_path)
    monkeypatch.setattr(sys, "path", [*sys.path])
    trial, folder = runpy.run_path(f"{TOP}/tools/try"), tmp_path / "a trial"
    lines = trial["next_lines"](trial["PROVED"], folder).splitlines()[1:]
    serve, claim, upload, install = [shlex.split(it) for it in lines]
    assert Path(serve[0]).resolve() == trial["PROVED"] and Path(serve[3]).resolve() == folder / "index.db"
    # of the pages and files of a day, so that it does not end after some
    assert int(serve[serve.index("--requests") + 1]) >= 1_000_000
    for line in (claim, upload):
        assert Path(line[1].partition("=")[2]).resolve() == folder / "ann.token"
        assert line[2] == "python3" and os.path.samefile(line[3], f"{TOP}/indexctl")
    assert Path(upload[-1]).resolve() == folder / trial["NEXT"]
    assert Path(install[-2]).resolve() == folder / "installed"


# in the place of the kit: a build of some sources is cut off when its program is there
BUILD = """import os
class NotBuilt(Exception):
    pass
def build(top, target, **more):
    os.makedirs(os.path.dirname(target), exist_ok=True)
    with open(target, "w") as made:
        made.write("#!/bin/sh\\nexit 9\\n")
    os.chmod(target, 0o755)
    raise NotBuilt("the disk is full")
"""


@catches("tools/try", "stamp.unlink(missing_ok=True)", "pass")
def test_what_a_build_that_failed_left_is_not_taken_for_the_program(clone):
    """Also if the sources are again those of the program that it took the place of."""
    os.remove(clone / "crates/index/out/index")
    (clone / "tools/lib/unproved.py").write_text(BUILD)
    (clone / "crates.txt").write_text("")
    stamps = ("import runpy, sys; trial = runpy.run_path(sys.argv[1]); trial['UNPROVED'].parent.mkdir(); "
              "trial['UNPROVED'].with_suffix('.sources').write_text(trial['sources']())")
    subprocess.run([sys.executable, "-B", "-c", stamps, f"{clone}/tools/try"], check=True)
    said = []
    for _ in range(2):
        ended = subprocess.run([sys.executable, f"{clone}/tools/try"], stdout=subprocess.PIPE, stderr=subprocess.PIPE,
                               text=True, check=False)
        said.append((ended.returncode, ended.stderr))
    assert said == [(1, "tools/try: the disk is full\n")] * 2
