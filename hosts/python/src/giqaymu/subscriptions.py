"""Callbacks: subscriptions, watches, listeners, and what the loops have to tell.

One thread calls them all, one at a time, so a callback may call anything of the layer, and makes the others wait. Who
changes the group says which keys may have changed (None: any); the thread runs the queries anew that read one of them,
and tells a result that differs from the last one. Changes that come while it works are looked at together. A query that
was run since the group was at this moment isn't run anew: the moment is asked for before any query is run, so what a
query has seen is no older.

The condition `_wake` protects all fields, but `_told` of what is subscribed, which the thread alone uses. No callback
and no query is called with it held.
"""

from __future__ import annotations

import logging
import threading
from collections import deque
from collections.abc import Callable
from typing import Any, Protocol

from .edge import Diff
from .transactions import Query, ReadTransaction, Reads, is_touched

Json = Any
Ask = Callable[[Query, Reads | None], Json]
"""Runs a query as of one moment, and remembers what it read."""
Moment = tuple[int, int]
"""By what a group's states are told apart."""
POLLED = 50
"""Two gets of a key cost what a poll of so many rows does."""
log = logging.getLogger("giqaymu")


class Polled(Protocol):
    """The rows with a prefix, which are polled."""

    def changes(self) -> tuple[bool, list[Diff]]:
        """What differs from the last time; or all rows as added, and True: the first time, and in another group."""
        ...


class Subscription:
    """A query whose result is told whenever it differs."""

    def __init__(
        self,
        query: Query,
        on_data: Callable[[Json], None],
        on_error: Callable[[Exception], None] | None,
        is_equal: Callable[[Json, Json], bool],
    ) -> None:
        self._query, self._on_data, self._on_error, self._is_equal = query, on_data, on_error, is_equal
        self._reads: Reads | None = None  # None: it was not told yet
        self._told: Json = None
        self._moment: Moment | None = None

    def _may_differ(self, keys: set[str] | None, moment: Moment) -> bool:
        if self._reads is None:
            return True
        return moment != self._moment and (keys is None or is_touched(self._reads, keys))

    def tell(self, ask: Ask, keys: set[str] | None, moment: Moment) -> None:
        """Runs the query anew where these keys may change its result, and it hasn't seen this moment."""
        if not self._may_differ(keys, moment):
            return
        is_first = self._reads is None
        reads: Reads = set()
        try:
            result = ask(self._query, reads)
        except Exception as error:
            if self._on_error is None:
                raise
            self._on_error(error)
            return
        self._reads, self._moment = reads, moment
        if is_first or not self._is_equal(self._told, result):
            self._told = result
            self._on_data(result)


class Watch:
    """The rows with a prefix, whose differences are told."""

    def __init__(
        self, callback: Callable[[list[Diff]], None], prefix: str, polled: Polled, *, tells_first: bool
    ) -> None:
        self._callback, self._prefix, self._polled, self._tells_first = callback, prefix, polled, tells_first
        self._rows: dict[str, Json] | None = None
        self._moment: Moment | None = None  # at which all rows were polled
        self._told: dict[str, Diff] = {}  # of each key the first difference that was told since, without a poll

    def tell(self, ask: Ask, keys: set[str] | None, moment: Moment) -> None:
        """Looks at these keys, or at all, and tells what differs."""
        if self._moment == moment:
            return
        if self._rows is None:
            diffs = self._all({}, moment)
            if self._tells_first:
                self._callback(diffs)
            return
        mine = None if keys is None else {key for key in keys if key.startswith(self._prefix)}
        if mine is None or POLLED * len(mine) > len(self._rows):
            diffs = self._all(self._rows, moment)
        else:
            diffs = self._some(ask, self._rows, mine)
        if diffs:
            self._callback(diffs)

    def _all(self, rows: dict[str, Json], moment: Moment) -> list[Diff]:
        is_whole, polled = self._polled.changes()
        self._rows, self._moment = rows, moment
        told, self._told = self._told, {}
        # What was told since, and isn't polled now, is as it was at the last poll; where all rows are it is gone.
        new: dict[str, Json] = {}
        if not is_whole:
            new.update((key, diff.old_value) for key, diff in told.items() if diff.op != "add")
        for diff in polled:
            new.pop(diff.key, None)
            if diff.op != "del":
                new[diff.key] = diff.new_value
        return _laid(rows, {*rows, *new} if is_whole else {*told, *(diff.key for diff in polled)}, new)

    def _some(self, ask: Ask, rows: dict[str, Json], keys: set[str]) -> list[Diff]:
        if not keys:
            return []

        def values(tx: ReadTransaction) -> dict[str, Json]:
            return {key: tx.get(key) for key in keys if tx.has(key)}

        diffs = _laid(rows, keys, ask(values, None))
        for diff in diffs:
            self._told.setdefault(diff.key, diff)
        return diffs


def _laid(rows: dict[str, Json], keys: set[str], new: dict[str, Json]) -> list[Diff]:
    """Gives these keys what is new, to the others nothing: what differs."""
    old = {key: rows.pop(key) for key in keys if key in rows}
    rows.update(new)
    return _diffs(old, new)


def _diffs(old: dict[str, Json], new: dict[str, Json]) -> list[Diff]:
    """What differs, in the order of the keys' UTF-8 bytes."""
    diffs = [Diff("del", key, value, None) for key, value in old.items() if key not in new]
    for key, value in new.items():
        if key not in old:
            diffs.append(Diff("add", key, None, value))
        elif old[key] != value:
            diffs.append(Diff("change", key, old[key], value))
    return sorted(diffs, key=lambda diff: diff.key.encode())


class Listener:
    """A function that is called whenever something may have changed."""

    def __init__(self, call: Callable[[], None]) -> None:
        self._call = call

    def tell(self, ask: Ask, keys: set[str] | None, moment: Moment) -> None:
        """Calls it."""
        self._call()


Subscribed = Subscription | Watch | Listener


class Teller(threading.Thread):
    """The thread that calls back."""

    def __init__(self, ask: Ask, moment: Callable[[], Moment]) -> None:
        super().__init__(name="giqaymu-tell", daemon=True)
        self._ask, self._moment = ask, moment
        self._wake = threading.Condition()
        self._subscribed: list[Subscribed] = []
        self._new: list[Subscribed] = []
        self._keys: set[str] | None = set()
        self._has_changed = False
        self._calls: deque[Callable[[], None]] = deque()
        self._ended = False

    def add(self, one: Subscribed) -> Callable[[], None]:
        """Tells it for the first time, soon, and from then on. What this answers ends that."""
        with self._wake:
            self._subscribed.append(one)
            self._new.append(one)
            self._wake.notify_all()

        def end() -> None:
            with self._wake:
                if one in self._subscribed:
                    self._subscribed.remove(one)

        return end

    def changed(self, keys: set[str] | None) -> None:
        """These keys may have changed, or what is pending, or whether the client is online."""
        # Who subscribes after this look is told what the map is by then.
        if not self._subscribed:
            return
        with self._wake:
            if keys is None:
                self._keys = None
            elif self._keys is not None:
                self._keys |= keys
            self._has_changed = True
            self._wake.notify_all()

    def later(self, call: Callable[[], None]) -> None:
        """Calls it on this thread."""
        with self._wake:
            self._calls.append(call)
            self._wake.notify_all()

    def end(self) -> None:
        """Nothing more is called, but what is being called."""
        with self._wake:
            self._ended = True
            self._wake.notify_all()

    def run(self) -> None:
        """The thread."""
        while True:
            with self._wake:
                self._wake.wait_for(lambda: self._ended or self._has_changed or self._calls or self._new)
                if self._ended:
                    return
                calls, new = list(self._calls), self._new
                keys, has_changed = self._keys, self._has_changed
                others = [one for one in self._subscribed if one not in new] if has_changed else []
                self._calls.clear()
                self._new, self._keys, self._has_changed = [], set(), False
            for call in calls:
                self._safely(call)
            if new or others:
                self._safely(lambda: self._look(new, others, keys))

    def _look(self, new: list[Subscribed], others: list[Subscribed], keys: set[str] | None) -> None:
        moment = self._moment()
        for one in new:
            self._tell(one, None, moment)
        for one in others:
            self._tell(one, keys, moment)

    def _tell(self, one: Subscribed, keys: set[str] | None, moment: Moment) -> None:
        with self._wake:
            if one not in self._subscribed:
                return
        self._safely(lambda: one.tell(self._ask, keys, moment))

    def _safely(self, call: Callable[[], None]) -> None:
        try:
            call()
        except Exception:
            if not self._ended:
                log.exception("a callback failed")
