"""How a run ends: its status, and the sentence that says why."""
from __future__ import annotations

REFUSED, WRONG, UNREACHED, INTERRUPTED, PIPE_CLOSED = 1, 2, 3, 130, 141


class Stop(Exception):
    """Ends the run with this status and this sentence."""

    def __init__(self, status: int, sentence: str) -> None:
        super().__init__(sentence)
        self.status = status
