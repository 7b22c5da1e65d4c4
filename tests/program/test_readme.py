"""What the README shows of the program is what the program does, and each command of the README works in a clone."""
from __future__ import annotations

import os
import re
import runpy
import shutil
import subprocess
import sys

import pytest
from support.needed import want_commands_of, want_module
from support.places import TOP
from support.ports import free_port
from support.running import run

BLOCK = re.compile(r"```sh\n(\S*index apply <<'LINES'\n.*?LINES\n)```\n\n```\n(.*?)```\n", re.S)
PATIENCE, PATIENCE_OF_A_BUILD = 120, 3_000
ROOMS = "tools", "tests", "indexctl", "server", "bench"
PROVED, UNPROVED = "crates/index/out/index", "crates/index/try/index"


def read(page):
    with open(f"{TOP}/{page}", encoding="utf-8") as kept:
        return kept.read()


def copy_rooms(folder, *rooms):
    """Copies rooms of the repository, without what was built there."""
    for room in rooms:
        built = "__pycache__", "out", *(["try"] if room == "crates" else [])
        shutil.copytree(f"{TOP}/{room}", f"{folder}/{room}", ignore=shutil.ignore_patterns(*built))
    for name in ("CHANGELOG.md", "HANDLES", "crates.txt"):
        shutil.copy(f"{TOP}/{name}", folder)


@pytest.fixture
def bare(folder):
    """A clone without its crates, in which nothing is built."""
    copy_rooms(folder, *ROOMS)
    return folder


@pytest.fixture(params=[pytest.param(PROVED, id="proved", marks=pytest.mark.slow),
                        pytest.param(UNPROVED, id="not_proved")])
def clone(request, program, bare):
    """A clone in which the program is built, by `tools/build` or else by `tools/try`."""
    place = f"{bare}/{request.param}"
    os.makedirs(os.path.dirname(place))
    shutil.copy(program, place)
    if request.param == UNPROVED:
        with open(f"{place}.sources", "w", encoding="utf-8") as stamp:
            stamp.write(runpy.run_path(f"{bare}/tools/try")["sources"]())
    return bare


def pasted(line, clone, patience=PATIENCE):
    """The end of a line that is pasted into a shell in the clone."""
    return subprocess.run(["bash", "-c", line], cwd=clone, text=True, stdout=subprocess.PIPE, stderr=subprocess.STDOUT,
                          timeout=patience)


def test_the_lines_of_the_readme_get_the_answers_that_it_shows(clone, looked):
    page = read("README.md")
    found = BLOCK.findall(page)
    assert len(found) == 1, "the README has one block of lines, and behind it their answers"
    asked, answers = found[0]
    looked(asked.startswith("index "), asked)
    looked(f"`{UNPROVED}` of `tools/try`, and `{PROVED}` of `tools/build`" in page, "where the program is")
    built = UNPROVED if os.path.exists(f"{clone}/{UNPROVED}") else PROVED
    ended = pasted(f"PATH={os.path.dirname(built)}:$PATH; {asked}", clone)
    looked((ended.returncode, ended.stdout) == (0, answers), asked, ended.stdout)


def goes_on(ended, clone, looked):
    """Looks whether `tools/try` let pip install, and whether the lines that it printed last work as they stand."""
    looked(ended.returncode == 0 and "Successfully installed frob-1.0" in ended.stdout, ended.stdout)
    port = free_port()
    serve, *others = [it.strip().replace(":8080", f":{port}") for it in ended.stdout.splitlines()[-4:]]
    with subprocess.Popen(["bash", "-c", f"exec {serve}"], cwd=clone, text=True, stdout=subprocess.PIPE) as serving:
        try:
            looked(serving.stdout.readline() == f"listening on 127.0.0.1:{port}\n", serve)
            said = [pasted(line, clone) for line in others]
            looked([it.returncode for it in said] == [0, 0, 0], [it.stdout for it in said])
            looked("1 of 1 files are there" in said[1].stdout, said[1].stdout)
            looked("Successfully installed spam-1.0" in said[2].stdout, said[2].stdout)
        finally:
            serving.terminate()


def test_tools_try_ends_with_lines_that_work_as_they_stand(clone, looked):
    want_module("pip", "python3-pip")
    # no setting that you have for another index changes what is tried
    yours = f"INDEX_RECORD={clone}/record INDEX_CA=/none PIP_NO_INDEX=1 http_proxy=http://127.0.0.1:1"
    ended = pasted(f"{yours} {sys.executable} tools/try", clone)
    looked(not os.path.exists(f"{clone}/record"), "the record is yours")
    looked("NOT PROVED" in ended.stdout or os.path.exists(f"{clone}/{PROVED}"), ended.stdout)
    goes_on(ended, clone, looked)
    again = pasted(f"{sys.executable} tools/try", clone)
    looked(again.returncode == 0 and "Successfully installed frob-1.0" in again.stdout, again.stdout)
    looked(os.path.exists(f"{clone}/try/installed/spam.py"), "what was installed by hand stays")


@pytest.mark.slow
@pytest.mark.timeout(PATIENCE_OF_A_BUILD)
@pytest.mark.xdist_group("builds")
@pytest.mark.skipif(not shutil.which("rt"), reason="the kit is not installed, with which the program is built")
def test_tools_try_builds_the_program_where_nothing_is_built(bare, looked):
    want_module("pip", "python3-pip")
    copy_rooms(bare, "crates")
    ended = pasted(f"{sys.executable} tools/try", bare, PATIENCE_OF_A_BUILD)
    goes_on(ended, bare, looked)
    told = pasted(f"{UNPROVED} --version", bare)
    looked("NOT PROVED" in told.stdout and not os.path.exists(f"{bare}/{PROVED}"), told.stdout)


@pytest.mark.parametrize("command", ["tests/run --quick", "tools/package", "bench/bench", "bench/bench-behind-nginx",
                                     f"{sys.executable} -B -m pytest tests/program -k readme"])
def test_where_nothing_is_built_a_command_says_how_it_is(bare, command, looked):
    want_commands_of(command)
    ended = pasted(command, bare)
    looked(ended.returncode != 0 and "tools/build" in ended.stdout and "Traceback" not in ended.stdout,
           command, ended.stdout)


@pytest.mark.parametrize("command", ["tools/try", "tools/build"])
def test_without_the_kit_a_command_says_where_one_is_had(bare, command, looked):
    os.mkdir(f"{bare}/bin")
    os.symlink(sys.executable, f"{bare}/bin/python3")
    ended = pasted(f"PATH={bare}/bin {command}", bare)
    looked(ended.returncode == 1 and "README.md says which kit you need" in ended.stdout
           and "Traceback" not in ended.stdout, command, ended.stdout)


def test_each_command_of_the_readme_is_there_and_says_what_it_does(looked):
    found = set(re.findall(r"(?:`|^)((?:tools|tests|\.ci)/\w+)(?: [^`\n]*)?(?:`|$)", read("README.md"), re.M))
    looked({"tools/try", "tools/build", "tests/run", "tools/package", "tools/image", ".ci/run"} == found, found)
    for command in sorted(found - {".ci/run"}):
        ended = pasted(f"{command} --help", TOP)
        looked(ended.returncode == 0 and ended.stdout.startswith("usage: "), command, ended.stdout)
    looked(os.access(f"{TOP}/.ci/run", os.X_OK), ".ci/run")


def test_the_readme_names_the_versions_of_the_changelog_and_of_the_program(program, looked):
    sections = re.findall(r"^## (\S+), (.+)$", read("CHANGELOG.md"), re.M)
    newest = next(version for version, day in sections if day != "not yet released")
    coming = [version for version, day in sections if day == "not yet released"]
    said = read("README.md").partition("\n## ")[0]
    looked(set(re.findall(r"\b\d+\.\d+\.\d+\b", said)) == {newest, *coming}, said)
    told = run(program, "--version").stdout.decode().split()[1]
    looked(f"Version {told} " in said, told)


def first_numbers(row):
    """The first number of each cell of a table's row."""
    found = (re.match(r" ([\d,]+)\b", cell) for cell in row.split("|"))
    return [int(it[1].replace(",", "")) for it in found if it]


def test_the_rates_of_the_readme_are_those_of_the_last_measurement(looked):
    """Within a fifth, by which they differ from run to run."""
    told = re.search(r"as fast as nginx alone, within the noise: about ([\d,]+) pages of 100 files a second, ([\d,]+) "
                     r"compressed as pip asks, and ([\d,]+) files of 1 MiB", read("README.md"))
    assert told
    rows = {row.split("|")[1].strip(): first_numbers(row) for row in read("docs/operators/PERFORMANCE.md").splitlines()
            if row.startswith("| ")}
    page = next(it for it in rows if it.startswith("page of 100 files,") and "gzip" not in it)
    _, *plain = rows[page]
    measured = plain[:2], rows[f"{page}, gzip as pip asks"], rows["file of 1,048,576 bytes"][1:3]
    for said, (behind, alone) in zip(told.groups(), measured, strict=True):
        looked(abs(int(said.replace(",", "")) / behind - 1) < 0.2, said, behind)
        looked(abs(behind / alone - 1) < 0.2, behind, alone)


@pytest.mark.parametrize("said, page, there", [
    ("files above 16 MiB", "crates/index_rules/src/decision/files.rt", "LARGEST_BODY: usize = 16_777_216;"),
    ("about six seconds and 1.1 GiB of memory", "docs/operators/SCALING.md", "1.08 times the bytes of the database"),
    ("about six seconds", "docs/operators/SCALING.md", "time: 6 s for each GiB"),
    ("20 MiB, 150 MiB after uploads of 16 MiB", "docs/operators/OPERATING.md",
     "20 MiB, or 150 MiB after uploads of 16 MiB, and up to 256 MiB of cached files and pages"),
    ("up to 256 MiB of cached files", "crates/index/src/serving.rt", "KEPT_BYTES: u64 = 268_435_456;"),
    ("Keep an index without one below [5 GB]", "docs/operators/SCALING.md",
     "So keep an index without a volume below 5 GB"),
    ("With 1,000,000 files there a start took 14.4 s of a processor and 340 MB of memory", "docs/operators/SCALING.md",
     "With 1,000,000 files in a volume a start took 14.4 s of a processor and 340 MB of memory"),
])
def test_the_figures_of_the_readme_are_those_of_their_sources(said, page, there):
    assert said in read("README.md") and there in read(page)
