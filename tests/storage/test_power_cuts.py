"""The power of a disk is cut under the program, at each place of what the kernel wrote to a real file system.

The disk is a recording one (support/disk). For states that a cut may leave (each write before the last flush is there;
each later one is there, lost, or there in part) the kernel mounts what is left, and the program opens what it finds.
The tables have to be those of the answers that were given, or these and the request in progress.

`--rounds N` tries N states of each run; `--file-systems ext4 xfs btrfs` names file systems."""
from __future__ import annotations

import random
import sys

import pytest
from support.cuts_of_files import JOBS
from support.cuts_of_package import configure_job
from support.cuts_of_tools import reseal_job, restore_job
from support.disk.mounted import missing
from support.judge import Judge
from support.places import TOP
from support.planted import catches
from support.power_cuts import Job, apply_job, init_job, migrate_job, recorded, serve_job, try_states
from support.running import built, run_command

STATES = 100
# of the runs of tools, each of which takes longer to look at
OF_TOOLS = {"reseal": 40, "restore": 40, "configure": 24, **{name: 24 for name in JOBS}}
RESEAL = pytest.param("reseal", marks=pytest.mark.one_file("index-reseal refuses an index with a volume"))
# with how many states at the least one of a disk that keeps no promise is found
STATES_TO_SEE = 120

# A file system is unmounted when another program, which began before, has made a namespace of mounts. The device can be
# opened for one alone then if nobody keeps it.
BESIDE = """
import os, subprocess, sys
from support.disk.mounted import Mounted
words = ["sh", "-c", "read it; exec unshare --mount --propagation private sh -c 'echo made; exec sleep 60'"]
with subprocess.Popen(words, stdin=subprocess.PIPE, stdout=subprocess.PIPE, text=True) as other:
    with Mounted(sys.argv[1], "ext4", "noatime") as at:
        at.make()
        at.mount()
        other.stdin.write("go on\\n")
        other.stdin.flush()
        print(other.stdout.readline(), end="")
        at.unmount()
        os.close(os.open(at.device, os.O_RDWR | os.O_EXCL))
        other.kill()
"""

pytestmark = [pytest.mark.slow, pytest.mark.timeout(900)]


def pytest_generate_tests(metafunc: pytest.Metafunc) -> None:
    if "file_system" in metafunc.fixturenames:
        # of a file that is synced btrfs may write that alone, and nothing of what was made before
        more = ["btrfs"] if "package" in metafunc.fixturenames else []
        metafunc.parametrize("file_system", [*dict.fromkeys([*metafunc.config.option.file_systems.split(), *more])])


@pytest.fixture
def judge(program: str, folder: str) -> Judge:
    return Judge(program, folder)


def jobs(name: str, program: str, folder: str, judge: Judge):
    return {"init": lambda: init_job(program, judge), "apply": lambda: apply_job(program, judge),
            "migrate": lambda: migrate_job(program, folder), "serve": lambda: serve_job(program, folder),
            "reseal": lambda: reseal_job(program, folder), "restore": lambda: restore_job(program, folder),
            **{it: lambda make=make: make(program, folder) for it, make in JOBS.items()}}[name]()


def need(file_system: str) -> None:
    lacks = missing(file_system)
    if lacks:
        pytest.skip(lacks)


def cut(program: str, folder: str, job: Job, file_system: str, chance: random.Random, looked, rounds: int) -> None:
    """Looks at states that a power cut of a run may leave."""
    record = recorded(job, f"{folder}/recorded", file_system, "noatime", chance)
    most = rounds or OF_TOOLS.get(job.name, STATES)
    tried = try_states(program, record, f"{folder}/tried", file_system, most, chance)
    print(f"{file_system}, {job.name}: {len(record.entries)} entries, {tried.count} of {tried.of} states")
    looked.count += tried.count - 1
    looked(not tried.wrong, tried.wrong[:4])


@catches("server/lib/package_index/exchange.py", "os.rename(made, db)", "shutil.copyfile(made, db)",
         case="ext4-restore")
@catches("server/bin/index-reseal", "put_there(made, new)", "shutil.copyfile(made, new)", case="ext4-reseal")
@catches("server/lib/package_index/disk.py", "    sync(target)", "    pass",
         ("server/bin/index-log", "    sync(os.path.dirname(db))", "    pass"), case="ext4-log")
@pytest.mark.parametrize("name", ["init", "apply", "migrate", "serve", RESEAL, "restore", *JOBS])
def test_a_power_cut_leaves_what_was_answered(program, folder, judge, file_system, name, chance, looked, pytestconfig):
    need(file_system)
    cut(program, folder, jobs(name, program, folder, judge), file_system, chance, looked, pytestconfig.option.rounds)


@pytest.mark.xdist_group("machine")
def test_a_power_cut_leaves_what_a_package_that_is_installed_has_made(program, folder, package, file_system, chance,
                                                                      looked, pytestconfig):
    need(file_system)
    cut(program, folder, configure_job(program, folder, package), file_system, chance, looked,
        pytestconfig.option.rounds)


@catches("tests/support/disk/mounted.py", "        have_own_mounts()", "        pass")
def test_a_namespace_of_another_program_keeps_nothing_that_is_unmounted(folder):
    """The next mount would find what the kernel has of it in memory, in place of what a power cut left."""
    need("ext4")
    ended = run_command([sys.executable, "-B", "-c", BESIDE, folder], PYTHONPATH=f"{TOP}/tests")
    assert (ended.returncode, ended.stdout) == (0, "made\n")


class TestIsSeenToFail:
    """Acknowledged requests are lost if a disk or a file system or the program does not keep the order of writes."""

    def wrong_states(self, program, folder, judge, chance, options="noatime", flushes=True, **setting):
        need("ext4")
        record = recorded(apply_job(program, judge, **setting), f"{folder}/recorded", "ext4", options, chance)
        return try_states(program, record, f"{folder}/tried", "ext4", STATES_TO_SEE, chance, flushes).wrong

    def test_on_a_disk_that_flushes_nothing(self, program, folder, judge, chance):
        assert self.wrong_states(program, folder, judge, chance, flushes=False)

    def test_in_a_file_system_without_barriers(self, program, folder, judge, chance):
        assert self.wrong_states(program, folder, judge, chance, options="noatime,barrier=0")

    @pytest.mark.parametrize("left_out", ["every", "before", "behind"])
    def test_with_a_sync_left_out(self, program, folder, judge, chance, left_out):
        library = built("leave_out_syncs", folder)
        assert self.wrong_states(program, folder, judge, chance, LD_PRELOAD=library, LEAVE_OUT=left_out)
