"""What a mutator reads and writes on the server: the same calls that it has on a client.

A mutator that refuses writes nothing: its writes are kept apart until it returns. A row is read once for a whole
batch, and what a batch wrote is written at its end, so that a batch is a handful of statements.
"""

from __future__ import annotations

import json
from collections.abc import Callable
from typing import Any

from .databases import Statements
from .readable import key_of, size_of, text_of

Json = Any

UPSERT = """
    insert into entry values (?, ?, ?)
    on conflict (key) do update set value = excluded.value, version = excluded.version
"""


class Rows:
    """The rows that a batch reads and writes, as JSON texts; None: there is no row.

    `bytes` is the size of all rows of the space. Those that are gone count with their keys, since pulls tell of them.
    """

    def __init__(self, sql: Statements, size: int) -> None:
        self._sql = sql
        self.bytes = size
        self._texts: dict[str, str | None] = {}
        self._sizes: dict[str, int] = {}
        self._written: set[str] = set()

    def text(self, key: str) -> str | None:
        """The text of the row."""
        if key not in self._texts:
            row = self._sql.one("select value from entry where key = ?", key)
            self._texts[key] = None if row is None else row[0]
            self._sizes[key] = 0 if row is None else size_of(key, row[0])
        return self._texts[key]

    def keep(self, writes: dict[str, str | None], most: int) -> bool:
        """Keeps what a mutator wrote, unless all rows would then have more than `most` bytes. Whether it did."""
        sizes = {key: size_of(key, text) for key, text in writes.items()}
        more = sum(size - self._sizes[key] for key, size in sizes.items())
        if more > 0 and self.bytes + more > most:
            return False
        self.bytes += more
        self._texts.update(writes)
        self._sizes.update(sizes)
        self._written.update(writes)
        return True

    def write(self, version: int) -> None:
        """Writes what the batch wrote, at this version. A row that is gone stays without a value, to tell pulls."""
        self._sql.many(UPSERT, [(key, self._texts[key], version) for key in sorted(self._written)])


class WriteTransaction:
    """The map that a mutator reads and writes (Replicache: `WriteTransaction`), and whose mutation it does.

    A key or a value that not each client could read is refused: `readable.Unreadable`.
    """

    reason = "authoritative"

    def __init__(self, rows: Rows, client_id: str) -> None:
        self._rows = rows
        self.client_id = client_id
        self.writes: dict[str, str | None] = {}
        """What it wrote so far: texts by key; None: the row is gone."""

    def _text(self, key: str) -> str | None:
        key = key_of(key)
        return self.writes[key] if key in self.writes else self._rows.text(key)

    def get(self, key: str, default: Json = None) -> Json:
        """The value at the key, or the default where there is none."""
        text = self._text(key)
        return default if text is None else json.loads(text)

    def has(self, key: str) -> bool:
        """Whether the key is there."""
        return self._text(key) is not None

    def set(self, key: str, value: Json) -> None:
        """Puts a value at the key."""
        self._text(key)  # so that its size is known
        self.writes[key] = text_of(value)

    def delete(self, key: str) -> bool:
        """Takes the key out. Whether it was there."""
        if not self.has(key):
            return False
        self.writes[key] = None
        return True


Mutator = Callable[[WriteTransaction, Json], Json]
"""A mutator: its transaction, and the arguments. To refuse it raises anything; what it answers is not looked at."""
