"""What the server asks of a database, and connections that are kept.

Two kinds of transaction are all that push and pull rest on:

- `writing`: all that do it follow each other, each one sees all that those before it committed, and it is done as a
  whole or not at all. When it returns it is on the disk.
- `reading`: all that is read is read as of one moment, behind some of the writing ones and before the rest.

The work may be done more than once, when another transaction or a broken connection was in its way, also where it was
committed and nobody heard of it. So it does nothing but read and write by its statements, and answers what it found.
"""

from __future__ import annotations

import contextlib
import threading
from abc import ABC, abstractmethod
from collections import Counter
from collections.abc import Callable, Iterator, Sequence
from typing import Any, Generic, Protocol, TypeVar

T = TypeVar("T")
C = TypeVar("C", bound="Closing")
Row = tuple[Any, ...]

MOST_CONNECTIONS = 8
"""How many transactions a server does side by side."""
FREE = 20.0
"""How many seconds a transaction waits for one of them."""

SCHEMA = """
create table if not exists space (version bigint not null, bytes bigint not null);
create table if not exists entry (
    key {text} primary key, value text, version bigint not null  -- no value: the row is gone
);
create index if not exists entry_version on entry (version);
create table if not exists client_group (id text primary key);
create table if not exists client (
    id text primary key, client_group text not null, last_id bigint not null, version bigint not null
);
create index if not exists client_version on client (client_group, version);
insert into space select 0, 0 where not exists (select 1 from space)
"""
"""All tables. `text` is the type of a text that is ordered by its bytes in UTF-8."""


class Unavailable(Exception):
    """The database did not do it: it can't be reached, is too busy or is full. A later try may be done."""


class Closing(Protocol):
    """What is closed."""

    def close(self) -> None:
        """Closes it."""


class Statements(Protocol):
    """The statements of a transaction. A value stands for each question mark, and nowhere else is one."""

    def one(self, sql: str, *values: object) -> Row | None:
        """The first row, or None."""

    def all(self, sql: str, *values: object) -> list[Row]:
        """All rows."""

    def do(self, sql: str, *values: object) -> None:
        """No rows."""

    def many(self, sql: str, rows: Sequence[Row]) -> None:
        """One statement for each of the rows."""


class Counts:
    """What happened, and how often. Any thread counts."""

    def __init__(self) -> None:
        self._lock = threading.Lock()
        self._counts: Counter[str] = Counter()

    def add(self, what: str, times: int = 1) -> None:
        """It happened so many times more."""
        with self._lock:
            self._counts[what] += times

    def all(self) -> dict[str, int]:
        """What was counted."""
        with self._lock:
            return dict(self._counts)


class Database(ABC):
    """A database with the tables of `SCHEMA`."""

    errors: tuple[type[Exception], ...]
    """What its statements raise."""
    patience = 20.0
    """How many seconds a transaction waits for others, in all, until it is given up."""

    @abstractmethod
    def writing(self, work: Callable[[Statements], T]) -> T:
        """Does the work in a writing transaction, again where another one was in its way. Raises `Unavailable`."""

    @abstractmethod
    def reading(self, work: Callable[[Statements], T]) -> T:
        """Does the work in a reading transaction. Raises `Unavailable`."""

    @abstractmethod
    def committing(self, sql: Statements, version: int) -> None:
        """Called at the end of the transaction that makes the version."""

    @abstractmethod
    def listen(self, poke: Callable[[], None]) -> None:
        """Calls `poke` whenever a version may have been committed, from now on."""

    @abstractmethod
    def close(self) -> None:
        """Ends it."""


class Pool(Generic[C]):
    """Connections that are kept, `MOST_CONNECTIONS` at the most. Each is used by one thread at a time."""

    def __init__(self, connect: Callable[[], C]) -> None:
        self._connect = connect
        self._free = threading.Semaphore(MOST_CONNECTIONS)
        self._idle: list[C] = []

    @contextlib.contextmanager
    def one(self) -> Iterator[C]:
        """A connection. One that something went wrong with is closed, else it is kept for the next one."""
        if not self._free.acquire(timeout=FREE):
            raise Unavailable("too many transactions at once")
        connection: C | None = None
        try:
            connection = self._kept() or self._connect()
            yield connection
        except BaseException:
            if connection is not None:
                with contextlib.suppress(Exception):
                    connection.close()
            raise
        else:
            self._idle.append(connection)
        finally:
            self._free.release()

    def _kept(self) -> C | None:
        with contextlib.suppress(IndexError):
            return self._idle.pop()
        return None

    def close(self) -> None:
        """Closes those that nobody uses."""
        while (connection := self._kept()) is not None:
            connection.close()
