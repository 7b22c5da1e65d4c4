"""How the round trips of an upload are reckoned, from the trace of a kernel and from uploads of known lengths."""
from __future__ import annotations

import pytest
from support.planted import catches
from support.two_machines.latency import LINKS, Upload, round_trips, waits_in

HEAD = """# tracer: nop
#           TASK-PID     CPU#  |||||  TIMESTAMP  FUNCTION
#              | |         |   |||||     |         |
"""
FIRST = """\
           index-244     [000] .....  1342.315577: block_bio_queue: 147,0 WS 39544 + 50 [index]
           index-244     [000] .....  1342.315811: block_bio_queue: 147,0 WS 39594 + 2 [index]
          <idle>-0       [000] dNH2.  1342.333839: block_bio_complete: 147,0 WS 39544 + 50 [0]
          <idle>-0       [000] dNH2.  1342.333901: block_bio_complete: 147,0 WS 39594 + 2 [0]
           index-244     [000] .....  1342.335669: block_bio_queue: 147,0 FWS 0 + 0 [index]
          <idle>-0       [000] d.H3.  1342.357845: block_bio_complete: 147,0 FWS 0 + 0 [0]
"""
GATE = """\
           index-244     [000] .....  1342.359828: block_bio_queue: 147,0 WS 39544 + 2 [index]
          <idle>-0       [000] dNH2.  1342.393341: block_bio_complete: 147,0 WS 39544 + 2 [0]
           index-244     [000] .....  1342.394203: block_bio_queue: 147,0 FWS 0 + 0 [index]
          <idle>-0       [000] D.H5.  1342.415574: block_bio_complete: 147,0 FWS 0 + 0 [0]
"""
READ = """\
           index-244     [000] .....  1342.401000: block_bio_queue: 147,0 RA 4096 + 8 [index]
          <idle>-0       [000] dNH2.  1342.402000: block_bio_complete: 147,0 RA 4096 + 8 [0]
"""
JOURNAL = """\
    jbd2/drbd0-8-160     [000] .....  1343.001000: block_bio_queue: 147,0 FWFSM 131488 + 2 [jbd2/drbd0-8]
          <idle>-0       [000] dNH2.  1343.002000: block_bio_complete: 147,0 FWFSM 131488 + 2 [0]
"""


@catches("tests/support/two_machines/latency.py", "147,0 F?W", "147,0 W", case="journal")
@catches("tests/support/two_machines/latency.py", 'if sectors != "0":', "if sectors:", case="one")
@pytest.mark.parametrize("trace, waits", [
    ("", 0),
    (FIRST, 1),
    (FIRST + GATE, 2),
    (FIRST + READ + GATE, 2),
    (FIRST + JOURNAL + GATE, 3),
    (JOURNAL.splitlines(keepends=True)[1] + FIRST + GATE, 2),
    ((FIRST + GATE).replace("147,0", "254,16"), 0),
], ids=["nothing", "one", "two", "reads", "journal", "end of an earlier write", "another disk"])
def test_the_writes_that_an_upload_waits_for(trace: str, waits: int) -> None:
    assert waits_in(HEAD + trace) == waits


@pytest.mark.parametrize("trips", [0, 2, 3])
def test_the_slope_of_uploads_that_a_busy_machine_made_slower(trips: int) -> None:
    uploads = [Upload(link, waits, 100 + trips * link + slower)
               for link in LINKS for waits, slower in ((2, 0), (2, 0), (2, 9 * link), (4, -link), (2, 5000))]
    usual, slope = round_trips(uploads)
    assert usual == 2
    assert slope == pytest.approx(trips)
