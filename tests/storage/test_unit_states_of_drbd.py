"""What is read of /proc/drbd of a guest, in texts of DRBD 8.4.11."""
from __future__ import annotations

import pytest
from support.two_machines.pair import state_of

HEAD = "version: 8.4.11 (api:1/proto:86-101)\nsrcversion: F73C670A7EC572DB9CF3E5B \n"
IN_STEP = """ 0: cs:Connected ro:Primary/Secondary ds:UpToDate/UpToDate C r-----
    ns:671 nr:0 dw:178888 dr:387 al:10 bm:0 lo:0 pe:0 ua:0 ap:0 ep:1 wo:f oos:0
"""
BEHIND = """ 0: cs:SyncTarget ro:Secondary/Primary ds:Inconsistent/UpToDate C r-----
    ns:0 nr:592 dw:592 dr:0 al:0 bm:0 lo:1 pe:2 ua:0 ap:0 ep:1 wo:f oos:32184
\t[===>................] sync'ed: 22.3% (32184/32768)K
\tfinish: 0:02:00 speed: 192 (192) want: 0 K/sec
"""
AHEAD = """ 0: cs:SyncSource ro:Primary/Secondary ds:UpToDate/Inconsistent C r-----
    ns:407 nr:30835 dw:42481 dr:15209 al:6 bm:0 lo:0 pe:3 ua:0 ap:2 ep:1 wo:f oos:32480
"""


class Guest:
    def __init__(self, text: str) -> None:
        self.text = text

    def must(self, script: str) -> str:
        assert script == "cat /proc/drbd"
        return self.text


@pytest.mark.parametrize("text, state", [
    (HEAD + IN_STEP, "Connected Primary/Secondary UpToDate/UpToDate"),
    (HEAD + BEHIND, "SyncTarget Secondary/Primary Inconsistent/UpToDate"),
    (HEAD + AHEAD, "SyncSource Primary/Secondary UpToDate/Inconsistent"),
    (HEAD + " 0: cs:Unconfigured\n", "Unconfigured"),
    (HEAD, "no resource"),
])
def test_the_state_of_a_guest(text: str, state: str) -> None:
    assert state_of(Guest(text)) == state
