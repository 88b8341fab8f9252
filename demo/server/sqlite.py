"""One file of SQLite.

Isolation. `begin immediate` takes SQLite's one write lock before anything is read, so writing transactions follow each
other, whoever makes them. In the mode WAL a reading one sees what was committed when its first statement began, and
waits for no writer.

The disk. `synchronous = full` makes each commit wait until the log is on the disk (`normal` waits at checkpoints alone:
it keeps all at a `kill -9`, and loses the last commits where the power fails).

Pokes reach the clients of this process. Several servers over one file would miss each other's.
"""

from __future__ import annotations

import contextlib
import sqlite3
from collections.abc import Callable, Iterator, Sequence
from pathlib import Path
from typing import TypeVar

from .databases import SCHEMA, Database, Pool, Row, Statements, Unavailable

T = TypeVar("T")


class _Statements:
    """Statements of a connection. It remembers which version the transaction makes."""

    def __init__(self, connection: sqlite3.Connection) -> None:
        self._connection = connection
        self.made_version = False

    def one(self, sql: str, *values: object) -> Row | None:
        row: Row | None = self._connection.execute(sql, values).fetchone()
        return row

    def all(self, sql: str, *values: object) -> list[Row]:
        return self._connection.execute(sql, values).fetchall()

    def do(self, sql: str, *values: object) -> None:
        self._connection.execute(sql, values)

    def many(self, sql: str, rows: Sequence[Row]) -> None:
        self._connection.executemany(sql, rows)


class Sqlite(Database):
    """The database in a file, which is made where there is none."""

    errors = (sqlite3.Error, MemoryError)

    def __init__(self, file: Path) -> None:
        self._file = file
        self._pool = Pool(self._connect)
        self._poke: Callable[[], None] = lambda: None
        self.writing(self._make_tables)

    def _connect(self) -> sqlite3.Connection:
        """Without transactions of its own. It waits for the write lock, `patience` at the most."""
        connection = sqlite3.connect(self._file, timeout=self.patience, isolation_level=None, check_same_thread=False)
        try:
            connection.execute("pragma journal_mode = wal")
            connection.execute("pragma synchronous = full")
        except BaseException:
            connection.close()
            raise
        return connection

    def _make_tables(self, sql: Statements) -> None:
        for statement in SCHEMA.format(text="text").split(";"):
            sql.do(statement)

    @contextlib.contextmanager
    def _within(self, begin: str) -> Iterator[_Statements]:
        """A transaction. What raises inside takes it back."""
        try:
            with self._pool.one() as connection:
                connection.execute(begin)
                try:
                    sql = _Statements(connection)
                    yield sql
                    connection.execute("commit")
                finally:
                    if connection.in_transaction:
                        connection.execute("rollback")
        except sqlite3.Error as error:
            raise Unavailable(str(error)) from error
        if sql.made_version:
            self._poke()

    def writing(self, work: Callable[[Statements], T]) -> T:
        with self._within("begin immediate") as sql:
            return work(sql)

    def reading(self, work: Callable[[Statements], T]) -> T:
        with self._within("begin") as sql:
            return work(sql)

    def committing(self, sql: Statements, version: int) -> None:
        """Pokes once it is committed."""
        assert isinstance(sql, _Statements)
        sql.made_version = True

    def listen(self, poke: Callable[[], None]) -> None:
        self._poke = poke

    def close(self) -> None:
        self._pool.close()
