"""What a client is told if it is refused, and what else the log of a program says of that."""
from __future__ import annotations


class Refused(Exception):
    """Why a request is refused: a status and a sentence, and what is for the log alone."""

    def __init__(self, status: int, sentence: str, note: str = "") -> None:
        super().__init__(sentence)
        self.status, self.sentence, self.note = status, sentence, note
