"""What a test prints if it fails: what was asked, what came, and what was awaited."""
from __future__ import annotations

import subprocess
from dataclasses import dataclass

# of a long output, its end says most
MOST = 3_000


@dataclass
class Seen:
    asked: object
    came: object
    awaited: object

    def __repr__(self) -> str:
        return f"\nasked: {self.asked}\ncame: {str(self.came)[-MOST:]}\nawaited: {self.awaited}\n"


def is_ended(ended: subprocess.CompletedProcess, is_well: bool, *said: str) -> bool:
    """Whether a command ended well, or did not, and said each of these, however its lines are broken."""
    text = " ".join(ended.stdout.split())
    return (ended.returncode == 0) == is_well and all(it in text for it in said)


def end_seen(ended: subprocess.CompletedProcess, is_well: bool, *said: str) -> Seen:
    """The same as it is printed."""
    words = ended.args if isinstance(ended.args, str) else " ".join(map(str, ended.args))
    return Seen(words, f"status {ended.returncode}\n{ended.stdout}",
                f"{'status 0' if is_well else 'another status than 0'}" + "".join(f", {it!r}" for it in said))
