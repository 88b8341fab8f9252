"""The push and the pull endpoint, over a database's transactions (Replicache: Push and Pull Endpoint Reference).

A push's mutations are done in batches, one writing transaction for each. In it the IDs are compared, the mutators are
run, and rows and last IDs are written: so each mutation is done once, however often it comes. One that is refused
writes nothing and counts as done: else its client would send it for ever.

Whose group it is isn't asked: here everybody may read and write all rows. A program with users compares the user of the
request with the one of the group, in the same transaction, and answers the rows that this user may read.
"""

from __future__ import annotations

import json
import logging
from collections import Counter
from collections.abc import Mapping
from functools import partial
from typing import Any

from .bodies import BadRequest, Mutation, Pull, Push
from .databases import Counts, Database, Statements
from .transactions import Mutator, Rows, WriteTransaction

Json = Any

BATCH = 200
"""How many mutations are done in one transaction."""
MOST_BYTES = 64 << 20
"""How many bytes all rows may have in a patch, since a client takes no response of any size."""

log = logging.getLogger("server")

NEW_GROUP = "insert into client_group values (?) on conflict do nothing"
NEW_LAST_ID = """
    insert into client values (?, ?, ?, ?)
    on conflict (id) do update set last_id = excluded.last_id, version = excluded.version
"""


class StateNotFound(Exception):
    """The server does not know the group, or a client that it has known, or has gone back to an older state."""


class Space:
    """The space of rows, and its client groups."""

    def __init__(
        self, database: Database, mutators: Mapping[str, Mutator], counts: Counts, most_bytes: int = MOST_BYTES
    ) -> None:
        """`most_bytes` is what all rows may have together, as patches tell them."""
        self._database, self._mutators, self._counts, self._most_bytes = database, mutators, counts, most_bytes

    def push(self, push: Push) -> None:
        """Does the mutations that are new. Raises `BadRequest` and `StateNotFound`, where nothing was done."""
        for at in range(0, len(push.mutations), BATCH):
            batch = push.mutations[at : at + BATCH]
            # The first batch looks at all clients, so that a push that does not fit changes nothing.
            looked_at = push.mutations if at == 0 else batch
            counts = self._database.writing(partial(self._do, push.group, batch, looked_at))
            for what, times in counts.items():
                self._counts.add(what, times)

    def _do(self, group: str, batch: list[Mutation], looked_at: list[Mutation], sql: Statements) -> Counter[str]:
        """A batch, in its transaction: what became of it."""
        last = {one.client: 0 for one in looked_at}
        for client in last:
            last[client] = _last_id(sql, group, client)
        _check_next(last, looked_at)
        sql.do(NEW_GROUP, group)
        new = [one for one in batch if one.id > last[one.client]]
        counts = Counter({"mutations seen again": len(batch) - len(new)})
        if not new:
            return counts
        version, size = _next_version(sql)
        rows = Rows(sql, size)
        for one in new:
            counts["mutations done" if self._run(rows, one) else "mutations refused"] += 1
            last[one.client] = one.id
        rows.write(version)
        sql.do("update space set bytes = ?", rows.bytes)
        changed = sorted({one.client for one in new})
        sql.many(NEW_LAST_ID, [(client, group, last[client], version) for client in changed])
        self._database.committing(sql, version)
        return counts

    def _run(self, rows: Rows, mutation: Mutation) -> bool:
        """Runs the mutator: whether it did not refuse. It refuses by all that it raises but the database's errors."""
        mutator = self._mutators.get(mutation.name)
        if mutator is None:
            return False
        tx = WriteTransaction(rows, mutation.client)
        try:
            mutator(tx, mutation.args)
        except self._database.errors:
            raise
        except Exception as refused:
            log.debug("%s refused: %r", mutation.name[:40], refused)
            return False
        return rows.keep(tx.writes, self._most_bytes)

    def pull(self, pull: Pull) -> Json:
        """What changed since the cookie, as of one moment. Raises `StateNotFound`."""
        if pull.cookie is None:
            self._database.writing(lambda sql: sql.do(NEW_GROUP, pull.group))
        response: Json = self._database.reading(partial(_changes, pull))
        self._counts.add("pulls")
        return response

    def forget(self, group: str) -> None:
        """The group and its clients are not known any more."""

        def work(sql: Statements) -> None:
            sql.do("delete from client where client_group = ?", group)
            sql.do("delete from client_group where id = ?", group)

        self._database.writing(work)

    def version(self) -> int:
        """The space's version."""
        return self._database.reading(_version)

    def report(self) -> Json:
        """The rows in the order of their keys' bytes, the last ID of each client, the version, and what was counted."""

        def read(sql: Statements) -> Json:
            rows = sql.all("select key, value from entry where value is not null order by key")
            return {
                "rows": [[key, json.loads(text)] for key, text in rows],
                "clients": {client: last for client, last in sql.all("select id, last_id from client")},
                "version": _version(sql),
            }

        return {**self._database.reading(read), "counts": self._counts.all()}


def _last_id(sql: Statements, group: str, client: str) -> int:
    """The last ID of the client, 0 where it is new."""
    row = sql.one("select client_group, last_id from client where id = ?", client)
    if row is None:
        return 0
    if row[0] != group:
        raise BadRequest(f"client {client} is of another group")
    return int(row[1])


def _check_next(last: Mapping[str, int], mutations: list[Mutation]) -> None:
    """The first mutation of each client is not beyond its next one."""
    seen: set[str] = set()
    for one in mutations:
        if one.client in seen or one.id <= last[one.client] + 1:
            seen.add(one.client)
        elif last[one.client] == 0:
            raise StateNotFound(f"client {one.client} has done {one.id - 1}, of which nothing is known")
        else:
            raise BadRequest(f"client {one.client} has done {last[one.client]} here, not yet {one.id - 1}: push all")


def _version(sql: Statements) -> int:
    row = sql.one("select version from space")
    assert row is not None
    return int(row[0])


def _next_version(sql: Statements) -> tuple[int, int]:
    """The version that the transaction makes, and how many bytes the rows have."""
    row = sql.one("update space set version = version + 1 returning version, bytes")
    assert row is not None
    return int(row[0]), int(row[1])


def _changes(pull: Pull, sql: Statements) -> Json:
    """The response to a pull."""
    version = _version(sql)
    if pull.cookie is not None:
        if sql.one("select 1 from client_group where id = ?", pull.group) is None:
            raise StateNotFound("the group is not known")
        if pull.cookie > version:
            raise StateNotFound(f"the group has seen version {pull.cookie}, and this is {version}")
    since = -1 if pull.cookie is None else pull.cookie
    rows = sql.all("select key, value from entry where version > ? order by key", since)
    changed = "select id, last_id from client where client_group = ? and version > ?"
    patch: list[Json] = [{"op": "clear"}] if pull.cookie is None else []
    patch += [_operation(*row) for row in rows if pull.cookie is not None or row[1] is not None]
    changes = {client: last for client, last in sql.all(changed, pull.group, since)}
    return {"cookie": version, "lastMutationIDChanges": changes, "patch": patch}


def _operation(key: str, text: str | None) -> Json:
    """What a patch does with a row."""
    return {"op": "del", "key": key} if text is None else {"op": "put", "key": key, "value": json.loads(text)}
