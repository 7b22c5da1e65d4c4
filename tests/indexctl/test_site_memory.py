"""`indexctl site` reads wheels that anybody may upload, in little memory, and goes on."""
import bz2
import os
import time

import pytest
from support.indexctl import bombs
from support.indexctl.projects import wheel_of
from support.packages import wheel_name
from support.serving import Index, accepted

pytestmark = pytest.mark.slow
MOST = 200 << 20


def high_water(pid):
    """The most memory that a process has had since it was begun, if it has not ended. (What wait4 says of it begins
    with that of this process.)"""
    with open(f"/proc/{pid}/status", encoding="ascii") as kept:
        return next((int(row.split()[1]) << 10 for row in kept if row.startswith("VmHWM:")), 0)


@pytest.mark.timeout(900)
def test_no_wheel_takes_the_memory_of_the_machine_and_the_run_goes_on(program, open_folder, by, looked):
    """METADATA of one GiB by each way, and one wheel of 160,000 entries."""
    # the one whose bits are put together by hand
    looked(len(bz2.BZ2Decompressor().decompress(bombs.by_bzip2(), MOST)) == MOST, "a real decompressor reads it")
    with Index(program) as index:
        for name, wheel in bombs.bombs().items():
            accepted(index.claim(f"bomb-{name}"))
            accepted(index.upload(f"bomb-{name}", f"bomb_{name}-1.0-py3-none-any.whl", wheel))
        # behind them
        accepted(index.claim("fine"))
        accepted(index.upload("fine", wheel_name("fine", "1.0"), wheel_of("fine", "1.0", "Summary: all is well\n")))
        by.setting["INDEX_URL"] = f"http://127.0.0.1:{index.port}"
        os.mkdir(f"{open_folder}/pages")
        run, most = by.start("site", f"{open_folder}/pages"), 0
        while run.poll() is None:
            most = max(most, high_water(run.pid))
            time.sleep(0.02)
        said = run.communicate()[1]
    looked((run.returncode, said) == (0, ""), run.returncode, said)
    looked(20 << 20 < most < MOST, "so many MiB", most >> 20)
    for name, text in (("fine", "all is well"), ("bomb-many", "many"), ("bomb-deflate", "xxx"), ("bomb-bzip2", "bomb"),
                       ("bomb-lzma", "bomb")):
        with open(f"{open_folder}/pages/projects/{name}.html", encoding="utf-8") as page:
            looked(text in page.read(), name)
