"""What a server loses on purpose, so that a test sees what its clients do then."""

from __future__ import annotations

import random
import threading
from typing import Any

from .bodies import BadRequest

Json = Any


class Losses:
    """Which part of the requests is not looked at, which part of the responses is not sent, or breaks in the middle."""

    def __init__(self) -> None:
        self._lock = threading.Lock()
        self._dice = random.Random()
        self.lose = self.cut = 0.0
        """The parts, from 0 to 1: of requests, and as much of responses; of responses that break."""
        self.is_down = False
        """Nothing is answered."""

    def change(self, words: dict[str, Json]) -> None:
        """Takes `lose`, `cut` and `down`, each where it is given."""
        for name in ("lose", "cut"):
            part = words.get(name, 0)
            if type(part) not in (int, float) or not 0 <= part <= 1:
                raise BadRequest(f"{name} is no number from 0 to 1")
        if not isinstance(words.get("down", False), bool):
            raise BadRequest("down is neither true nor false")
        self.lose = words.get("lose", self.lose)
        self.cut = words.get("cut", self.cut)
        self.is_down = words.get("down", self.is_down)

    def loses(self) -> bool:
        """Whether a request, or a response, is lost."""
        return self.is_down or self._falls_below(self.lose)

    def cuts(self) -> bool:
        """Whether a response breaks in the middle."""
        return self._falls_below(self.cut)

    def _falls_below(self, part: float) -> bool:
        with self._lock:
            return self._dice.random() < part
