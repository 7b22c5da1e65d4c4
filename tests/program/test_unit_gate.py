"""How the gate runs its parts, counts its turns, and ends. And tests that share what takes long run in one process, so
that it is made once."""
from __future__ import annotations

import os
import re
import signal
import subprocess
import sys
from functools import partial
from pathlib import Path
from zlib import crc32

import pytest
from support.breaks import names_of
from support.durations import name_of, write
from support.inner_runs import copy_rooms, run_tests
from support.needed import want_command, want_module
from support.options import is_of_share
from support.places import TOP
from support.planted import catches
from support.programs import program_of
from support.running import new_repository, run_command, write_below


@catches("tests/conftest.py", 'given.get("dist") == "loadgroup"', "False")
def test_tests_of_a_group_go_to_one_worker():
    """xdist then writes the group behind the name of a test."""
    test = "tests/indexctl/test_pythons.py::test_the_version_is_that_of_the_newest_changes"
    ended = run_tests(TOP, [test], "-vv", "-n", "1")
    assert ended.status == 0 and f"PASSED {test}@pythons" in ended.said, ended.said


@catches("tests/support/durations.py", r'return re.sub(r"@[^@\]]+$", "", test)', "return test")
@pytest.mark.parametrize("name", ["test_a.py::test_b", "test_a.py::test_b[c@d]", "test_a.py::test_b[c-d@e.f]"])
def test_how_long_a_test_took_is_kept_by_its_name_alone(name):
    assert name_of(f"{name}@group") == name_of(name) == name


@catches("tests/support/durations.py", "with suppress(OSError):", "if True:")
@catches("tests/support/durations.py", "made.unlink(missing_ok=True)", "pass")
def test_times_that_can_not_be_kept_end_no_run(tmp_path):
    (tmp_path / "parts.json").mkdir()
    write(tmp_path / "parts.json", {"tests": 1.0})
    assert os.listdir(tmp_path) == ["parts.json"]


# what commits add, one after the other
CHANGES = [f"crates/a/{number}" for number in range(4)]


def gate_of(monkeypatch, folder, lines):
    """The gate, in another repository with these lines of landings.txt."""
    gate = program_of(f"{TOP}/tests/run")
    monkeypatch.setattr(gate, "TOP", str(folder))
    monkeypatch.setattr(gate, "LANDINGS", f"{folder}/landings.txt")
    (folder / "landings.txt").write_text("".join(f"{it}\n" for it in ("# what it is", *lines)))
    return gate


def test_each_landing_has_its_line_and_stands_on_another_commit():
    """By two lines of one landing a share would be stepped over."""
    gate = program_of(f"{TOP}/tests/run")
    lines = [it for it in Path(gate.LANDINGS).read_text().splitlines() if not it.startswith("#")]
    assert [it for it in lines if not re.fullmatch(r"20\d\d-\d\d-\d\d [0-9a-f]{8,40}", it)] == []
    assert len({it.split()[1] for it in lines}) == len(lines) == len(gate.landings()) > 0


@catches("tests/run", "with suppress(OSError):", "if True:")
@catches("tests/run", "return None if ended.returncode else ended.stdout", "return ended.stdout")
def test_without_git_all_counts_as_changed(monkeypatch, tmp_path, capfd):
    gate = gate_of(monkeypatch, tmp_path, ["2026-11-30 be9a0440"])
    monkeypatch.setenv("GIT_DIR", "/none")
    assert gate.has_changed("crates/a", gate.landings(), 1)
    gate.want_a_line()
    monkeypatch.setenv("PATH", "/none")
    assert gate.has_changed("crates/a", gate.landings(), 1) and capfd.readouterr() == ("", "")


@catches("tests/run", "landings[-count]", "landings[-1]")
@catches("tests/run", '!= ""\n', 'is None\n')
def test_what_changed_counts_since_so_many_landings(monkeypatch, tmp_path):
    want_command("git", "git")
    first, second, third = new_repository(tmp_path, CHANGES[:3])
    gate = gate_of(monkeypatch, tmp_path, [])
    assert not gate.has_changed("crates/b", [first, second], 2)
    assert gate.has_changed("crates/b", [first, second], 3)
    assert gate.has_changed("crates/a", [second, third], 2) and not gate.has_changed("crates/a", [second, third], 1)


@catches("tests/run", "if since > MOST_COMMITS:", "if False:", case="4-True")
@pytest.mark.parametrize("count, is_told", [(3, False), (4, True)])
def test_landings_without_a_line_are_told(monkeypatch, tmp_path, count, is_told):
    want_command("git", "git")
    first, *_ = new_repository(tmp_path, CHANGES[:count])
    gate = gate_of(monkeypatch, tmp_path, [f"2026-11-30 {first}"])
    monkeypatch.setattr(gate, "MOST_COMMITS", 2)
    if is_told:
        with pytest.raises(SystemExit, match=f"3 commits stand on {first}, the newest line"):
            gate.want_a_line()
    else:
        gate.want_a_line()


@catches("tests/run", "turn = len(known)", "turn = 16 * len(known)")
def test_each_turn_is_the_next_one(monkeypatch):
    """So that each share of each part has its turn in ten landings."""
    gate = program_of(f"{TOP}/tests/run")

    def shares(landings):
        monkeypatch.setattr(gate, "landings", lambda: ["x"] * landings)
        parts = gate.parts_of(gate.whole(1))
        return {it.name: it.words[it.words.index("--share") + 1].split("/") for it in parts if "--share" in it.words}

    seen = [shares(count) for count in range(1, 11)]
    for name in ("no-program", "tests", "try-edits", "try-twins", "try-rules"):
        counts = {int(it[name][1]) for it in seen if name in it}
        assert len(counts) == 1 and max(counts) <= 10
        of = counts.pop()
        assert {int(it[name][0]) % of for it in seen if name in it} == {*range(of)}, name


@catches("tests/run", ", memory // OF_A_PROOF)", ", 99)", case="16-24-4")
@catches("tests/run", "max(1, min(", "max(0, min(", case="2-4-1")
@pytest.mark.parametrize("processors, memory, count", [(4, 24, 4), (2, 24, 2), (16, 24, 4), (2, 4, 1)])
def test_a_proof_goes_on_each_processor_if_memory_holds_it(monkeypatch, processors, memory, count):
    gate = program_of(f"{TOP}/tests/run")
    monkeypatch.setattr(gate.os, "sched_getaffinity", lambda _: range(processors))
    monkeypatch.setattr(gate.os, "sysconf", {"SC_PAGE_SIZE": 4096, "SC_PHYS_PAGES": memory << 18}.get)
    assert gate.whole(1)[0].parts[0].words == ["env", f"RT_JOBS={count}", "rt", "ci"]


@catches("tests/run", "if not proofs.words:", "if False:", case="True-1-2-0")
@catches("tests/run", "[proofs, *edits] if is_kept else ()", "()", case="True-1-2-0")
@pytest.mark.parametrize("is_kept, stages, left_out, needs", [(True, 1, 2, 0), (False, 2, 0, 2)])
def test_if_the_proofs_are_kept_all_tests_go_side_by_side(monkeypatch, is_kept, stages, left_out, needs):
    gate = program_of(f"{TOP}/tests/run")
    monkeypatch.setattr(gate.proved, "is_kept", lambda words, of: True)
    monkeypatch.setattr(gate, "has_changed", lambda *given: False)
    planned = gate.whole(6, is_kept)
    parts = {it.name: it for it in gate.parts_of(planned)}
    assert len(planned) == stages and len([it for it in planned[-1].beside if not it.words]) == left_out
    assert bool(parts["rt-ci"].words) != is_kept
    tests = [it for it in parts.values() if "pytest" in it.words]
    assert len([it for it in tests if "--needs" in it.words]) == needs and "6" in parts["tests"].words


@catches("tests/run", '"-c", f"safe.directory={TOP}", "-C"', '"-C"')
@pytest.mark.skipif(os.geteuid() != 0, reason="only root may give a repository to another user")
def test_the_turns_go_on_in_the_repository_of_another_user(monkeypatch, tmp_path):
    """As in a container, where git else refuses to look at it."""
    _, second = new_repository(tmp_path, CHANGES[:2])
    for path in (tmp_path, tmp_path / ".git"):
        os.chown(path, 65534, 65534)
    gate = gate_of(monkeypatch, tmp_path, [])
    assert not gate.has_changed("crates/a", [second], 1)


@catches("tests/run", "(turn + turn // TURNS) % 2 == 1", "turn % 2 == 1")
@catches("tests/run", "not has_volume(len(landings()))", "has_volume(len(landings()))")
def test_indexes_have_a_volume_at_each_second_turn_and_each_share_at_each_second_time(monkeypatch):
    gate = program_of(f"{TOP}/tests/run")
    turns = ["--volume" in gate.tests(1, turn).words for turn in range(2 * gate.TURNS)]
    assert turns[:3] == [False, True, False]
    assert all(one != other for one, other in zip(turns[:gate.TURNS], turns[gate.TURNS:]))
    for turn, has_volume in enumerate(turns):
        monkeypatch.setattr(gate, "landings", lambda: ["x"] * turn)
        words = gate.other_tests(1).words
        assert ("--volume" in words) != has_volume and f"{TOP}/tests" not in words and f"{TOP}/tests/storage" in words


@catches("tests/run", "side.join()", "pass")
@catches("tests/run", "args=(False,)", "args=(True,)")
@catches("tests/run", "side.start()", "side.run()")
def test_a_stage_begins_when_all_of_the_one_before_have_ended(capfd, tmp_path):
    """The output of what goes beside others is shown behind theirs."""
    gate = program_of(f"{TOP}/tests/run")

    def part(name, awaited, then=":"):
        waits = f"touch {tmp_path}/{name}; until test -e {tmp_path}/{awaited}; do sleep 0.1; done"
        return gate.Part(name, ["timeout", "20", "sh", "-c", f"echo {name}; {waits}; {then}"], "")

    stages = [gate.Stage([part("one", "beside")], [part("beside", "other", f"sleep 1; touch {tmp_path}/done"),
                                                   part("other", "beside")]),
              gate.Stage([gate.Part("two", ["sh", "-c", f"test -e {tmp_path}/done && echo two"], "")], [])]
    names = ["one", "beside", "other", "two"]
    assert [(it.name, it.status) for it in gate.run_all(stages)] == [(name, 0) for name in names]
    assert capfd.readouterr().out.split() == names


@catches("tests/conftest.py", '== (config.option.needs == "program")', "")
def test_each_test_needs_a_program_or_none():
    file = "tests/mutants/test_python_mutants.py"

    def names(*words):
        return [it for it in run_tests(TOP, [file], "--collect-only", "--mutants", "1", *words).said.splitlines()
                if "::" in it]

    nothing, program = names("--needs", "nothing"), names("--needs", "program")
    assert program == ["mutants/test_python_mutants.py::test_mutants_are_caught"] and nothing
    assert sorted([*nothing, *program]) == sorted(names())


@catches("tests/run", "signal.signal(signal.SIGPIPE, signal.SIG_DFL)", "pass")
def test_a_list_of_the_gate_that_is_cut_off_ends_without_a_word():
    """As by `tests/run --list | head`."""
    read_end, write_end = os.pipe()
    os.close(read_end)
    with subprocess.Popen([f"{TOP}/tests/run", "--list"], stdout=write_end, stderr=subprocess.PIPE) as listing:
        os.close(write_end)
        assert listing.stderr.read() == b"" and listing.wait(timeout=60) == -signal.SIGPIPE


@pytest.mark.parametrize("quick, unpacked", [(True, ["promtool"]), (False, ["promtool", "kernel"])])
def test_a_quick_run_unpacks_what_a_user_can_not_install(monkeypatch, quick, unpacked):
    """A kernel, of 80 MB, is for slow tests alone."""
    gate, done = program_of(f"{TOP}/tests/run"), []
    monkeypatch.setattr(gate, "program_of", lambda given: given)
    monkeypatch.setattr(gate.shutil, "which", lambda command: command)
    for name in ("look_in_sbin", "install_missing", "go_on_by_a_python_with_pytest"):
        monkeypatch.setattr(gate.set_up, name, lambda *given: None)
    for name in ("promtool", "kernel"):
        monkeypatch.setattr(gate.set_up, f"unpack_{name}", partial(done.append, name))
    gate.prepare(gate.argparse.Namespace(quick=quick, program="", no_install=False))
    assert done == unpacked


# in the place of the kit, which knows no crate
KIT = """class rtlib:
    guarded = staticmethod(lambda: [])
    crates_below = staticmethod(lambda top: [])
"""


@catches("tools/try-edits", "self.rt, self.log = rt,", "tempfile.mkdtemp(); self.rt, self.log = rt,")
def test_wrong_bodies_whose_log_can_not_be_written_leave_no_folder(tmp_path):
    for folder in ("bin", "temporary", "log"):
        (tmp_path / folder).mkdir()
    text = f"#!{sys.executable}\n{KIT}if __name__ == '__main__':\n    print('{tmp_path}/doc')\n"
    (tmp_path / "bin/rt").write_text(text)
    (tmp_path / "bin/rt").chmod(0o755)
    ended = run_command([f"{TOP}/tools/try-edits", "--log", f"{tmp_path}/log"], TMPDIR=f"{tmp_path}/temporary",
                        PATH=f"{tmp_path}/bin:{os.environ['PATH']}")
    assert ended.stdout == f"{tmp_path}/log can't be written: Is a directory\n"
    assert os.listdir(tmp_path / "temporary") == []


# a gate of three commands, of which the first two print more than a pipe holds when they are interrupted
GATE = f"""
import signal, sys
from importlib.machinery import SourceFileLoader
gate = SourceFileLoader("gate", {TOP + "/tests/run"!r}).load_module()
def part(name):
    talks = "trap 'seq 100000; exit 1' INT; echo begun $0; sleep 60 >&- 2>&- & wait"
    return gate.Part(name, ["sh", "-c", talks, name], "")
gate.prepare = lambda given: None
def whole(jobs, is_kept):
    for number in signal.SIGINT, signal.SIGTERM:
        signal.siginterrupt(number, comes == "at once")
    return [gate.Stage([part("one"), part("two")], [part("beside")])]
gate.whole = whole
comes = sys.argv.pop()
sys.exit(gate.main())
"""


@pytest.mark.parametrize("comes", ["at once", "late"])
def test_a_gate_that_is_interrupted_twice_ends_and_begins_nothing_more(comes: str):
    """Also if what it ends still prints much, and if Python is told of the signal late, as when it comes just before a
    thread waits for a command."""
    with subprocess.Popen([sys.executable, "-B", "-W", "ignore", "-c", GATE, comes], stdout=subprocess.PIPE, text=True,
                          start_new_session=True) as run:
        try:
            assert run.stdout.readline() == "begun one\n"
            run.send_signal(signal.SIGTERM)
            run.send_signal(signal.SIGINT)
            said, _ = run.communicate(timeout=60)
        finally:
            run.kill()
    lines = said.splitlines()
    assert lines[-1] == "interrupted: nothing is left running" and run.returncode in (128 + 15, 128 + 2)
    assert "begun two" not in lines and "100000" in lines


# what tools/build and tools/try-edits do with a signal
TOOL = """
import signal, lanes
lanes.end_at_signals(lambda: "ended")
print("begun one", flush=True)
while True:
    signal.pause()
"""


@catches("tools/lib/children.py", "if signal.getsignal(it) is not signal.SIG_IGN]", "if it]", case="words1",
         also=["server/test_unit_packages.py::test_what_nohup_began_goes_on_after_a_hang_up"])
@catches("tests/run", "if signal.getsignal(number) is not signal.SIG_IGN:", "if number:", case="words0")
@pytest.mark.parametrize("words", [("-W", "ignore", "-c", GATE, "at once"), ("-c", TOOL)])
def test_what_nohup_began_is_not_ended_by_a_hang_up(words):
    words = ["nohup", sys.executable, "-B", *words]
    with subprocess.Popen(words, stdin=subprocess.DEVNULL, stdout=subprocess.PIPE, stderr=subprocess.STDOUT, text=True,
                          env={**os.environ, "PYTHONPATH": f"{TOP}/tools/lib"}, start_new_session=True) as run:
        try:
            assert run.stdout.readline() == "begun one\n"
            with open(f"/proc/{run.pid}/status", encoding="utf-8") as status:
                ignored = int(re.search(r"^SigIgn:\s*(\w+)$", status.read(), re.M)[1], 16)
            assert ignored & 1 << signal.SIGHUP - 1
            run.send_signal(signal.SIGTERM)
            run.communicate(timeout=60)
        finally:
            run.kill()
    assert run.returncode == 128 + 15


PASSES, FAILS = "echo 1 passed, 0 failed", "echo 'FAILED t.py::test_a[x y] - bad'; echo 0 passed, 1 failed; exit 1"
TWO_FAIL = "echo FAILED t.py::test_a; echo FAILED t.py::test_b; echo 0 passed, 2 failed; exit 1"
NO_NAME, SKIPS = "echo 0 passed, 1 failed; exit 1", "echo 0 passed, 0 failed"


ERROR = "echo 'ERROR t.py::test_a[x y]@some_group - bad'; echo 0 passed, 1 failed; exit 1"


@pytest.mark.parametrize("runs, is_by_chance, count", [
    ([FAILS, PASSES, PASSES], True, 3), ([FAILS, FAILS], False, 2), ([FAILS, PASSES, FAILS], False, 3),
    ([ERROR, PASSES, PASSES], True, 3), ([ERROR, ERROR], False, 2),
    ([FAILS, SKIPS], False, 2), ([TWO_FAIL], False, 1), ([NO_NAME], False, 1), ([PASSES], True, 1)])
def test_one_test_that_failed_has_to_pass_twice_alone(tmp_path, runs, is_by_chance, count):
    """Each run is the next of these commands."""
    for number, text in enumerate(runs):
        (tmp_path / str(number)).write_text(text)
    talks = f"cd {tmp_path}; echo \"$@\" >> asked; next=$(ls [0-9] | head -n 1); mv $next done; . ./done"
    gate = program_of(f"{TOP}/tests/run")
    part = gate.Part("tests", ["sh", "-c", talks, "sh", f"{TOP}/tests", "--seed", "1"], "")
    part.run()
    gate.ask_again(part)
    asked = (tmp_path / "asked").read_text().splitlines()
    assert (part.status == 0, part.failed == 0, len(asked)) == (is_by_chance, is_by_chance, count)
    assert set(asked[1:]) <= {"t.py::test_a[x y] --seed 1 -n 0 --alone"}


def test_a_test_that_runs_by_turns_runs_alone_whatever_its_turn_is():
    name = "test_is_seen[server-nobody_waits]"
    one = f"tests/mutants/test_breaks.py::{name}"
    for turn in range(2):
        words = ["--collect-only", "--share", f"{crc32(name.encode()) + turn}/16"]
        assert (name in run_tests(TOP, [one], *words).said) == (turn == 0)
    assert name in run_tests(TOP, [one], *words, "--alone").said


@catches("tests/support/options.py", "zlib.crc32(name.encode())", "len(name)")
@catches("tests/support/options.py", "== which[0] % which[1]", "== which[0]")
def test_each_name_is_of_one_share_whatever_stands_beside_it():
    names = [f"test_is_seen[server-{number}]" for number in range(1000)]
    counts = [sum(is_of_share(it, (turn, 10)) for it in names) for turn in range(11, 21)]
    assert sum(counts) == 1000 and min(counts) > 60 and not is_of_share(names[0], None)


@catches("tests/conftest.py", 'it.name if hasattr(it, "callspec") else it.path.name', "it.name")
def test_tests_of_a_file_that_share_what_takes_long_take_their_turn_together():
    """Those that are not: each by its parameters."""
    want_module("jwt", "python3-jwt")
    turn, file = crc32(b"test_pipelines.py"), "tests/storage/test_pipelines.py"
    seen = run_tests(TOP, [file], "--collect-only", "--share", f"{turn}/10").said
    assert {*names_of(file)} <= {f"tests/{it}" for it in seen.splitlines()}
    assert "::" not in run_tests(TOP, [file], "--collect-only", "--share", f"{turn + 1}/10").said


ORDER = """
import pytest
def test_short(): pass
@pytest.mark.timeout(1_000)
def test_long(): pass
@pytest.mark.timeout(400)
def test_longer(): pass
"""


@catches("tests/conftest.py", "items.sort(key=limit_of, reverse=True)", "pass")
def test_a_worker_begins_with_what_may_take_longest(tmp_path):
    copy = copy_rooms(f"{tmp_path}/copy")
    write_below(copy, "tests/model/test_order.py", ORDER)
    seen = run_tests(copy, ["tests/model/test_order.py"], "-vv", "-n", "1").said
    assert re.findall(r"PASSED .*::test_(\w+)", seen) == ["long", "longer", "short"]
