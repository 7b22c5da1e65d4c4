"""Work that several threads share, and that can be stopped between two items."""
from __future__ import annotations

import queue
import threading
from contextlib import suppress
from typing import Callable, Iterator, Optional, Sequence, Tuple, TypeVar

from indexctl.terminal import Progress, note

Item = TypeVar("Item")
Result = TypeVar("Result")
AT_ONCE = 4
# so that Ctrl-C is heard on Windows too, in seconds
LOOKS_UP = 0.5


def at_once(function: Callable[[Item], Result], items: Sequence[Item], stopped: threading.Event) -> Iterator[Result]:
    """What a function gives for the items, four at a time and as it comes. The first failure ends it. However it ends,
    what is under way is waited for, so that nothing is left of which nobody knows whether it was done."""
    waiting: "queue.SimpleQueue[Item]" = queue.SimpleQueue()
    given: "queue.SimpleQueue[Tuple[Optional[Result], Optional[BaseException]]]" = queue.SimpleQueue()
    for item in items:
        waiting.put(item)

    def work() -> None:
        with suppress(queue.Empty):
            while not stopped.is_set():
                item = waiting.get_nowait()
                try:
                    given.put((function(item), None))
                except BaseException as end:
                    given.put((None, end))
                    return
    threads = [threading.Thread(target=work, daemon=True) for _ in range(min(AT_ONCE, len(items)))]
    for it in threads:
        it.start()
    try:
        for _ in items:
            result, end = next_of(given)
            if end:
                raise end
            yield result  # type: ignore[misc]
    except BaseException as end:
        stopped.set()
        if isinstance(end, KeyboardInterrupt):
            note("Stopping after what is under way. Press Ctrl-C again to end at once.")
        raise
    finally:
        for it in threads if stopped.is_set() else ():
            it.join()


def at_once_shown(what: str, function: Callable[[Item], Result], items: Sequence[Item],
                  stopped: threading.Event) -> Iterator[Result]:
    """The same, with how many of them are done on a terminal."""
    with Progress(what, len(items)) as progress:
        for result in at_once(function, items, stopped):
            progress.step()
            yield result


def next_of(given: "queue.SimpleQueue[Tuple[Optional[Result], Optional[BaseException]]]"
            ) -> Tuple[Optional[Result], Optional[BaseException]]:
    while True:
        with suppress(queue.Empty):
            return given.get(timeout=LOOKS_UP)
