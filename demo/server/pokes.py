"""What waits until the space may have a new version."""

from __future__ import annotations

import threading


class Pokes:
    """Counts pokes; any thread pokes and waits."""

    def __init__(self) -> None:
        self._change = threading.Condition()
        self._count = 0
        self._ended = False

    def poke(self) -> None:
        """There may be a new version."""
        with self._change:
            self._count += 1
            self._change.notify_all()

    def count(self) -> int:
        """How many pokes there were."""
        with self._change:
            return self._count

    def wait(self, seen: int, seconds: float) -> int:
        """How many there were, once that is not what was seen, or after `seconds`. Raises `EOFError` at the end."""
        with self._change:
            self._change.wait_for(lambda: self._ended or self._count != seen, seconds)
            if self._ended:
                raise EOFError("the server ends")
            return self._count

    def end(self) -> None:
        """Who waits is told of the end."""
        with self._change:
            self._ended = True
            self._change.notify_all()
