"""PostgreSQL, by psycopg2. Several servers may run over one database, whose encoding is UTF8. They connect to it
directly: behind a pooler that hands out transactions neither `listen` nor the settings of a connection hold.

Isolation. A push reads the last ID of each client, and does what is new. Two requests with the same mutations come at
the same time whenever a client sends again what it takes for lost. At READ COMMITTED, PostgreSQL's default, both read
the same last ID, the second one waits at the first row that both write, and then does all mutations again. So:

- a writing transaction is SERIALIZABLE, and its first statement is `lock table space`. That takes no snapshot. The
  transaction's snapshot is taken by the statement behind it, when it has the lock: it sees what all writing ones before
  it committed. The lock is let go after the commit can be seen.
- by the lock, pushes wait for each other in place of failing. SERIALIZABLE stands behind it: beside a program that
  writes these tables and doesn't take the lock, a transaction that would do a mutation twice fails (40001), and is done
  again. Reads take no lock that meets it; a VACUUM of `space`, a table of one row, does for a moment.
- a reading one is REPEATABLE READ: one snapshot, which has all versions up to the one that it reads. It takes no lock.

The disk. `synchronous_commit = on`: a commit returns when it is on the disk, where the server has not been told to do
without (`fsync = off`).

Where a connection breaks at a commit nobody knows whether it was done. The transaction is done again: what was done
the IDs tell.
"""

from __future__ import annotations

import contextlib
import random
import select
import socket
import threading
import time
from collections.abc import Callable, Iterator, Sequence
from typing import Any, TypeVar

import psycopg2  # type: ignore[import]
import psycopg2.extras  # type: ignore[import]

from .databases import SCHEMA, Counts, Database, Pool, Row, Statements, Unavailable

T = TypeVar("T")
Connection = Any

AGAIN = ("40001", "40P01")
"""A transaction that failed so may be done again: it can't be serialized, it was in a deadlock."""
CHANNEL = "space_version"
SETTINGS = """
    set client_min_messages = warning;
    set synchronous_commit = on;
    set lock_timeout = {0};
    set statement_timeout = {0};
    set idle_in_transaction_session_timeout = 10000
"""
"""Each wait has an end (milliseconds). A server that stands still in a transaction loses its lock for the others."""
ALIVE = {"connect_timeout": 5, "keepalives_idle": 10, "keepalives_interval": 5, "keepalives_count": 3}
"""A host that is gone is noticed within half a minute (in seconds)."""


class _Statements:
    """Statements of a connection."""

    def __init__(self, cursor: Any) -> None:
        self._cursor = cursor

    def one(self, sql: str, *values: object) -> Row | None:
        self.do(sql, *values)
        row: Row | None = self._cursor.fetchone()
        return row

    def all(self, sql: str, *values: object) -> list[Row]:
        self.do(sql, *values)
        rows: list[Row] = self._cursor.fetchall()
        return rows

    def do(self, sql: str, *values: object) -> None:
        self._cursor.execute(sql.replace("?", "%s"), values or None)

    def many(self, sql: str, rows: Sequence[Row]) -> None:
        """A hundred at a time in one message."""
        psycopg2.extras.execute_batch(self._cursor, sql.replace("?", "%s"), rows)


class Postgres(Database):
    """The database that a connection string of libpq names."""

    errors = (psycopg2.Error, MemoryError)
    begin_writing: Sequence[str] = (
        "begin isolation level serializable",
        "lock table space in share row exclusive mode",
    )
    begin_reading: Sequence[str] = ("begin isolation level repeatable read, read only",)

    def __init__(self, conninfo: str, counts: Counts) -> None:
        self._conninfo, self._counts = conninfo, counts
        self._pool = Pool(self._connect)
        self._end, self._ends = socket.socketpair()  # who listens is woken by its end
        self._has_ended = threading.Event()
        self._listener: threading.Thread | None = None
        encoding = self._again(("begin",), lambda sql: sql.one("show server_encoding"))
        if encoding != ("UTF8",):
            raise Unavailable(f"its encoding is {encoding}: make a database whose encoding is UTF8")
        self._again(("begin",), self._make_tables)

    def _connect(self) -> Connection:
        connection = psycopg2.connect(self._conninfo, **ALIVE)
        try:
            connection.autocommit = True  # transactions begin and end by statements
            with connection.cursor() as cursor:
                cursor.execute(SETTINGS.format(round(self.patience * 1000)))
        except BaseException:
            connection.close()
            raise
        return connection

    def _make_tables(self, sql: Statements) -> None:
        sql.do("select pg_advisory_xact_lock(hashtext('space'))")  # of two servers that start one makes them
        sql.do(SCHEMA.format(text='text collate "C"'))

    @contextlib.contextmanager
    def _within(self, begin: Sequence[str]) -> Iterator[_Statements]:
        """A transaction. What raises inside closes the connection, which takes it back."""
        with self._pool.one() as connection, connection.cursor() as cursor:
            for statement in begin:
                cursor.execute(statement)
            yield _Statements(cursor)
            cursor.execute("commit")

    def _again(self, begin: Sequence[str], work: Callable[[Statements], T]) -> T:
        """Does the work in a transaction, and again while others are in its way or the connection breaks."""
        end = time.monotonic() + self.patience
        pause = 0.002
        while True:
            try:
                with self._within(begin) as sql:
                    return work(sql)
            except (psycopg2.OperationalError, psycopg2.InterfaceError) as error:
                if time.monotonic() > end or not self._may_try_again(error):
                    raise Unavailable(str(error)) from error
            except psycopg2.Error as error:
                raise Unavailable(str(error)) from error
            time.sleep(random.random() * pause)
            pause = min(0.2, 2 * pause)

    def _may_try_again(self, error: psycopg2.Error) -> bool:
        """Whether another one was in the way, or the connection is gone (SQLSTATE: classes 57 and 08, or none)."""
        code = error.pgcode
        if code in AGAIN:
            self._counts.add("transactions in the way")
            return True
        self._counts.add("connections broken")
        return code is None or code.startswith(("57P", "08"))

    def writing(self, work: Callable[[Statements], T]) -> T:
        return self._again(self.begin_writing, work)

    def reading(self, work: Callable[[Statements], T]) -> T:
        return self._again(self.begin_reading, work)

    def committing(self, sql: Statements, version: int) -> None:
        """A note to all servers over the database, which is sent when it is committed."""
        sql.do(f"notify {CHANNEL}")

    def listen(self, poke: Callable[[], None]) -> None:
        self._listener = threading.Thread(target=self._listen, args=(poke,), name="listen", daemon=True)
        self._listener.start()

    def _listen(self, poke: Callable[[], None]) -> None:
        while not self._has_ended.is_set():
            try:
                with contextlib.closing(self._connect()) as connection:
                    self._pass_on(connection, poke)
            except (psycopg2.Error, OSError):
                self._counts.add("listeners broken")
                self._has_ended.wait(0.1)

    def _pass_on(self, connection: Connection, poke: Callable[[], None]) -> None:
        """Pokes for each note that comes, and once at the start, for what was missed."""
        with connection.cursor() as cursor:
            cursor.execute(f"listen {CHANNEL}")
        poke()
        while not self._has_ended.is_set():
            select.select([connection, self._ends], [], [])
            connection.poll()
            if connection.notifies:
                connection.notifies.clear()
                poke()

    def close(self) -> None:
        self._has_ended.set()
        self._end.close()
        if self._listener is not None:
            self._listener.join(self.patience)
        self._ends.close()
        self._pool.close()
