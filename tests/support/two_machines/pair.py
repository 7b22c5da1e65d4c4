"""Two guests with a cable between them and a power switch for each."""
from __future__ import annotations

import re
import time
from collections.abc import Iterator
from contextlib import contextmanager

from support.ports import free_port
from support.server.waits import wait_for
from support.two_machines.guests import Guest, NoAnswer
from support.two_machines.image import command
from support.two_machines.switch import Switch

NAMES = "one", "two"
# what an operator writes: the switch says `off` once the machine is off
POWER_OFF = """cat > /etc/drbd.d/index-power-off <<'END'
#!/bin/sh
printf 'GET /off?%s HTTP/1.0\\r\\n\\r\\n' "$1" | nc -w 8 10.0.2.100 80 | grep -qx off
END
"""


def state_of(guest: Guest) -> str:
    """How a guest is connected, both roles and both disks, by the kernel. drbdadm asks it too, but prints first that it
    took more than five seconds if the guest is busy."""
    found = re.search(r" cs:(\S+)(?: ro:(\S+) ds:(\S+))?", guest.must("cat /proc/drbd"))
    return " ".join(part for part in found.groups() if part) if found else "no resource"


def out_of_step(guest: Guest) -> int:
    """How many KiB of the two disks differ, by the kernel of a guest."""
    found = re.search(r" oos:(\d+)", guest.must("cat /proc/drbd"))
    return int(found[1]) if found else 0


class Pair:
    def __init__(self, folder: str, boots: tuple[str, str], switch: Switch) -> None:
        ends = free_port(), free_port()
        dials = f"{command('busybox')} nc 127.0.0.1 {switch.server.server_port}"
        self.switch = switch
        self.guests = [Guest(name, at + 1, f"{folder}/{name}", boots, (ends[at], ends[1 - at]), dials)
                       for at, name in enumerate(NAMES)]
        switch.guests.update({guest.name: guest for guest in self.guests})

    def other(self, guest: Guest) -> Guest:
        return self.guests[2 - guest.at]

    def pull_out(self, guest: Guest) -> None:
        """Pulls the cable out, and nobody's power can be cut by the switch meanwhile."""
        self.switch.works = False
        guest.put_cable(False)

    def boot(self) -> float:
        for guest in self.guests:
            guest.start()
        return max(guest.booted() for guest in self.guests)

    def states(self) -> list[str]:
        return [state_of(guest) if guest.process else "off" for guest in self.guests]

    def sees_no_other(self, guest: Guest, patience: float = 1800) -> bool:
        """Waits until DRBD of this guest knows that the other one is silent."""
        return wait_for(lambda: "/Unknown " in state_of(guest), patience)

    def wait_until_connected(self, patience: float = 1800) -> None:
        until = time.monotonic() + patience
        while time.monotonic() < until:
            if all(state.startswith("Connected") for state in self.states()):
                return
            time.sleep(0.3)
        raise NoAnswer(f"the guests are not connected: {self.states()}")

    def wait_until_in_step(self, patience: float = 3600) -> float:
        """Waits until both have the same disk, and returns the seconds that took."""
        begun = time.monotonic()
        while time.monotonic() < begun + patience:
            found = self.states()
            if all(state.startswith("Connected") and state.endswith("UpToDate/UpToDate") for state in found):
                return time.monotonic() - begun
            time.sleep(0.3)
        raise NoAnswer(f"the guests are not in step: {found}")


@contextmanager
def two_guests(folder: str, boots: tuple[str, str]) -> Iterator[Pair]:
    with Switch() as switch:
        pair = Pair(folder, boots, switch)
        try:
            yield pair
        finally:
            for guest in pair.guests:
                guest.cut()
