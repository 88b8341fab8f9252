"""What the tests share."""

from __future__ import annotations

import logging
import tempfile
import time
import unittest
from collections.abc import Callable
from pathlib import Path
from typing import Any

import todo
from giqaymu import Replicache, RequestOptions
from server import Server

logging.getLogger("giqaymu").setLevel(logging.CRITICAL)
QUICK = RequestOptions(min_delay=0.01, max_delay=0.2, timeout=5.0)


def until(holds: Callable[[], object], seconds: float = 15.0) -> bool:
    """Waits until it holds. Whether it does."""
    end = time.monotonic() + seconds
    while time.monotonic() < end:
        if holds():
            return True
        time.sleep(0.005)
    return bool(holds())


class WithServer(unittest.TestCase):
    """A test that has a server, a folder, and clients which are closed at its end."""

    def setUp(self) -> None:
        self.room = tempfile.TemporaryDirectory(ignore_cleanup_errors=True)
        self.store = Path(self.room.name) / "store"
        self.server = Server()
        self.opened: list[Replicache] = []
        self.addCleanup(self.end)

    def end(self) -> None:
        for rep in self.opened:
            rep.close()
        self.server.end()
        self.room.cleanup()

    def rep(self, **words: Any) -> Replicache:
        """A client over the server."""
        given: dict[str, Any] = {**self.server.urls, "mutators": todo.MUTATORS, "request_options": QUICK}
        if words.get("rules"):
            del given["mutators"]
        rep = Replicache(**{**given, **words})
        self.opened.append(rep)
        return rep

    def holds(self, what: Callable[[], object], seconds: float = 15.0) -> None:
        """It holds, soon."""
        self.assertTrue(until(what, seconds))

    def quiet(self, rep: Replicache) -> None:
        """Nothing is pending, soon."""
        self.holds(lambda: not rep.experimental_pending_mutations())


def rows(rep: Replicache) -> dict[str, Any]:
    """All rows that a client shows."""
    return dict(rep.query(lambda tx: tx.scan()))
