"""What a run says if it is interrupted in the midst of its work."""
from __future__ import annotations

import signal
from contextlib import contextmanager
from types import FrameType
from typing import Callable, Iterator, Optional

from indexctl.terminal import note

# a closed terminal and the end of a unit; Windows has no SIGHUP
SIGNALS = tuple(getattr(signal, name) for name in ("SIGHUP", "SIGTERM") if hasattr(signal, name))


def interrupt(_: int, __: Optional[FrameType]) -> None:
    raise KeyboardInterrupt


@contextmanager
def told_if_interrupted(sentence: Callable[[], str]) -> Iterator[None]:
    """Says this sentence if the work inside is interrupted: by Ctrl-C, by a closed terminal, or by SIGTERM, which are
    one here, or since its output can't be printed. A signal that is ignored, as under nohup, stays so."""
    before = {it: signal.getsignal(it) for it in SIGNALS}
    for it, handler in before.items():
        if handler is not signal.SIG_IGN:
            signal.signal(it, interrupt)
    try:
        yield
    except (KeyboardInterrupt, OSError):
        note(sentence(), "yellow")
        raise
    finally:
        for it, handler in before.items():
            signal.signal(it, handler)
