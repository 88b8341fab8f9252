"""The class `Replicache` over the server: what each tells the other when something goes wrong."""

from __future__ import annotations

import tempfile
import threading
import time
import unittest
from collections.abc import Callable
from pathlib import Path
from typing import Any

import todo
from children import ServerChild
from giqaymu import Replicache, RequestOptions, UpdateNeeded

WAIT = 20.0
QUICK = RequestOptions(min_delay=0.01, max_delay=0.1, timeout=5.0)


def until(holds: Callable[[], bool]) -> bool:
    """Whether it holds within a while."""
    end = time.monotonic() + WAIT
    while not holds() and time.monotonic() < end:
        time.sleep(0.01)
    return holds()


class Together(unittest.TestCase):
    """A server, and clients of it."""

    def setUp(self) -> None:
        room = tempfile.TemporaryDirectory()
        self.addCleanup(room.cleanup)
        self.server = ServerChild(Path(room.name) / "rows.db")
        self.addCleanup(self.server.close)
        self.errors: list[Exception] = []

    def client(self, schema: str = "1", **options: Any) -> Replicache:
        address = self.server.address
        client = Replicache(
            push_url=f"{address}/push",
            pull_url=f"{address}/pull",
            poke_url=f"{address}/poke",
            mutators=todo.MUTATORS,
            request_options=QUICK,
            on_error=lambda _, error: self.errors.append(error),
            schema_version=schema,
            **options,
        )
        self.addCleanup(client.close)
        return client

    def cut(self) -> int:
        return int(self.server.report()["counts"].get("responses cut", 0))

    def test_a_response_that_is_cut_is_none(self) -> None:
        self.server.trial(cut=1.0)
        client = self.client()
        client.mutate.add(id="x", text="milk")
        self.assertTrue(until(lambda: self.cut() > 5))
        self.assertFalse(client.online)
        self.assertEqual(self.errors, [])
        self.server.trial(cut=0.0)
        self.assertTrue(until(lambda: not client.experimental_pending_mutations()))
        self.assertEqual(dict(self.server.report()["rows"])["todos"], 1)

    def test_a_poke_brings_what_another_group_did(self) -> None:
        one, other = self.client(), self.client()
        other.pull(now=True).result(WAIT)
        one.mutate.add(id="x", text="milk")
        self.assertTrue(until(lambda: bool(other.query(lambda tx: tx.has("todo/x")))))

    def test_a_group_that_is_forgotten(self) -> None:
        told = threading.Event()
        client = self.client(on_client_state_not_found=told.set)
        client.mutate.add(id="x", text="milk")
        self.assertTrue(until(lambda: not client.experimental_pending_mutations()))
        self.server.trial(forget=client.client_group_id)
        client.pull(now=True)
        self.assertTrue(told.wait(WAIT))

    def test_a_schema_that_is_not_supported(self) -> None:
        told: list[UpdateNeeded] = []
        self.client(schema="2", on_update_needed=told.append)
        self.assertTrue(until(lambda: told == [UpdateNeeded("VersionNotSupported", "schema")]))


if __name__ == "__main__":
    unittest.main()
