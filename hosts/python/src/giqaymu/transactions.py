"""What a query reads, and what a mutator reads and writes.

A transaction is good until the function returns that it was handed to, and is used by the thread that has it. Then a
query's is refused with `Why.NOT_READ`, and a mutator's with `Why.NOT_ASKED`.
"""

from __future__ import annotations

from collections.abc import Callable, Mapping
from typing import Any

from .edge import Draft, Put, Reading, Row

Json = Any

Reads = set[tuple[bool, str]]
"""What a query read: a key (False), or all keys with a prefix (True)."""


def is_touched(reads: Reads, keys: set[str]) -> bool:
    """Whether a change of these keys may change what was read."""
    return any(
        any(key.startswith(text) for key in keys) if is_prefix else text in keys for is_prefix, text in reads
    )


class ReadTransaction:
    """The map as of one moment (Replicache: `ReadTransaction`; there are no indexes)."""

    __slots__ = ("_source", "client_id")

    reason = "query"

    def __init__(self, source: Draft | Reading, client_id: str | None = None) -> None:
        """For the layer alone."""
        self._source = source
        self.client_id = client_id
        """The ID of the client that asks. None in a mutator, which may not depend on whose mutation it runs: hand an ID
        over among the arguments."""

    def get(self, key: str, default: Json = None) -> Json:
        """The value at the key, or the default where there is none."""
        return self._source.get(key, default)

    def has(self, key: str) -> bool:
        """Whether the key is there."""
        return self._source.has(key)

    def is_empty(self) -> bool:
        """Whether there is no key."""
        return not self.scan(limit=1)

    def scan(
        self, prefix: str = "", *, at: str | None = None, after: str | None = None, limit: int | None = None
    ) -> list[Row]:
        """The rows whose keys begin with the prefix, in the order of their keys' UTF-8 bytes, as a list.

        They begin at the key `at`, or after the key `after`; there are `limit` at the most.
        """
        return self._source.scan(prefix, at=at, after=after, limit=limit)


class QueryTransaction(ReadTransaction):
    """What a query reads: the map, and what the server last sent, both as of one moment."""

    __slots__ = ("_reading",)

    def __init__(self, reading: Reading, client_id: str | None = None) -> None:
        """For the layer alone."""
        super().__init__(reading, client_id)
        self._reading = reading

    def pulled_get(self, key: str, default: Json = None) -> Json:
        """`get` of what the server last sent, without what is pending. Not Replicache's."""
        return self._reading.pulled_get(key, default)

    def pulled_scan(
        self, prefix: str = "", *, at: str | None = None, after: str | None = None, limit: int | None = None
    ) -> list[Row]:
        """`scan` of what the server last sent, without what is pending. Not Replicache's."""
        return self._reading.pulled_scan(prefix, at=at, after=after, limit=limit)


class NotingTransaction(QueryTransaction):
    """One that notes what is read, for a subscription."""

    __slots__ = ("_reads",)

    def __init__(self, reading: Reading, reads: Reads) -> None:
        """For the layer alone."""
        super().__init__(reading)
        self._reads = reads

    def get(self, key: str, default: Json = None) -> Json:
        """As `ReadTransaction.get`."""
        self._reads.add((False, key))
        return super().get(key, default)

    def has(self, key: str) -> bool:
        """As `ReadTransaction.has`."""
        self._reads.add((False, key))
        return super().has(key)

    def scan(
        self, prefix: str = "", *, at: str | None = None, after: str | None = None, limit: int | None = None
    ) -> list[Row]:
        """As `ReadTransaction.scan`."""
        self._reads.add((True, prefix))
        return super().scan(prefix, at=at, after=after, limit=limit)

    def pulled_get(self, key: str, default: Json = None) -> Json:
        """As `QueryTransaction.pulled_get`."""
        self._reads.add((False, key))
        return super().pulled_get(key, default)

    def pulled_scan(
        self, prefix: str = "", *, at: str | None = None, after: str | None = None, limit: int | None = None
    ) -> list[Row]:
        """As `QueryTransaction.pulled_scan`."""
        self._reads.add((True, prefix))
        return super().pulled_scan(prefix, at=at, after=after, limit=limit)


class WriteTransaction(ReadTransaction):
    """The map that a mutator reads and writes (Replicache: `WriteTransaction`).

    `reason` is `initial` where the client makes the mutation, and `rebase` where it is run again: on what a pull
    brought, or in a group that is restored. What a mutator does must depend on its name, its arguments, the reason and
    this map alone: not on the time, chance or anything kept elsewhere.
    """

    __slots__ = ("_draft", "_writes", "reason")

    def __init__(self, draft: Draft, reason: str, writes: set[str]) -> None:
        """For the layer alone."""
        self._source = self._draft = draft
        self.client_id = None
        self.reason = reason
        self._writes = writes

    def set(self, key: str, value: Json) -> None:
        """Puts a value at the key: what `json` writes, with whole numbers of 64 bits alone."""
        self._draft.put(key, value)
        self._writes.add(key)

    def set_all(self, rows: Mapping[str, Json]) -> None:
        """Puts each value at its key, as `set` does, by one call. Not Replicache's."""
        self._writes.update(rows)
        self._draft.write(Put(key, value) for key, value in rows.items())

    def delete(self, key: str) -> bool:
        """Takes the key out (Replicache: `del`). Whether it was there."""
        if not self._draft.has(key):
            return False
        self._draft.delete(key)
        self._writes.add(key)
        return True


Mutator = Callable[[WriteTransaction, Json], Json]
"""A mutator: its transaction, and the arguments. It raises `Refuse(code)`, or anything else, to change nothing."""

Query = Callable[[QueryTransaction], Json]
"""A query. A subscription runs it again and again, so it does nothing but read and answer."""
