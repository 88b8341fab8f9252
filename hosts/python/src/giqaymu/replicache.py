"""Replicache's client for programs in Python: the class `Replicache`.

How it works, by modules; each head says which lock protects what:

    replicache      what a program calls
      groups          the group: who may change it when; it grows                    the caller's thread
        playing         a group is made of its entries; mutators are run
        journal         a group as data
        store           the same in a folder, with locks
        edge            the library
      syncing         pushes, pulls, what their answers lead to                      giqaymu-push, giqaymu-pull
        loops           when a job is done, and again; the pace
        transport       what posts a body; http_transport: HTTP                      giqaymu-post
      recovery        groups of dead processes; pokes                                giqaymu-recover, giqaymu-poke
      subscriptions   subscriptions and watches; what is told, by callbacks          giqaymu-tell
        transactions    what queries and mutators see

A mutation is made on the caller's thread, with the group's lock held until its line is in the file; then the caller
waits for the disk, and the push's thread is woken. All threads are daemons, and joined by `close`.
"""

from __future__ import annotations

import functools
import threading
import time
import uuid
from collections.abc import Callable, Mapping
from concurrent.futures import Future
from pathlib import Path
from types import TracebackType
from typing import Any

from .callbacks import Announcer, Callbacks, UpdateNeeded
from .edge import Diff
from .groups import KeptGroup, Seat
from .journal import Entry, PendingMutation
from .loops import RequestOptions
from .playing import Unplayable
from .recovery import Pokes, Recovery
from .store import Durability, Identity, JournalFile, Left, SetAside, left_behind
from .subscriptions import Listener, Subscription, Teller, Watch
from .syncing import Poster, Syncer
from .transactions import Mutator, Query
from .transport import Transport

Json = Any

JOIN = 2.0
"""How many seconds `close` waits for the threads, in all."""


class Mutate:
    """`rep.mutate.NAME(args)`, `rep.mutate.NAME(id="x")` for fields by name, or `rep.mutate("NAME", args)`.

    A mutation runs at once and is shown at once; the answer is what its mutator answered (with rules None). With a
    store it is on the disk by then. Refused with `Why.REFUSED` and the code where the mutator raised `Refuse`, and with
    `Why.NO_MUTATOR`; anything else that the mutator raises is raised. Then nothing was changed. Raises `NotSafe`, and
    `Closed`. It differs from Replicache: it is no promise, since it has ended when it returns.
    """

    def __init__(self, kept: KeptGroup, seat: Seat) -> None:
        """For `Replicache` alone."""
        self._kept, self._seat = kept, seat

    def __getattr__(self, name: str) -> Callable[..., Json]:
        if name.startswith("_"):
            raise AttributeError(name)
        mutate, seat = self._kept.mutate, self._seat

        def call(*args: Json, **fields: Json) -> Json:
            if len(args) == 1 and not fields:
                return mutate(seat, name, args[0])
            if args:
                raise TypeError(f"{name}: one argument, or fields by name")
            return mutate(seat, name, fields or None)

        setattr(self, name, call)
        return call

    def __call__(self, name: str, args: Json = None) -> Json:
        """The mutation of this name."""
        return self._kept.mutate(self._seat, name, args)


class _Shared:
    """What the clients of a group share: the group, its loops, its threads."""

    def __init__(
        self,
        identity: Identity,
        group: Mapping[str, Any],
        syncing: Mapping[str, Any],
        callbacks: Callbacks,
        options: RequestOptions,
        store: tuple[Path, Durability] | None,
        poke_url: str,
    ) -> None:
        self.teller = Teller(lambda query, reads: self.kept.query(None, query, reads), lambda: self.kept.moment())
        self.announcer = Announcer(self.teller, callbacks)
        self._group = group
        self.kept = self._kept_in(store, identity) if store else self._kept(identity, [])
        self.syncer = Syncer(self.kept, self.announcer, options, **syncing)
        self.kept.on_mutation = self._mutated if self.syncer.can("push") else self.teller.changed
        self.at_end: Callable[[], None] = lambda: None
        """Ends requests that are under way."""
        self._is_closed = False
        self._lock = threading.Lock()
        self._others: list[Recovery | Pokes] = []
        if store is not None:
            self._others.append(Recovery(store[0], self.syncer, self.announcer, options))
        if poke_url:
            self._others.append(Pokes(poke_url, self.syncer, options))
        self._threads = [self.teller, self.syncer.push_loop, self.syncer.pull_loop, *self._others]
        for thread in self._threads:
            thread.start()
        if self.syncer.can("pull"):
            self.syncer.pull_loop.want()
        if self.kept.oldest() is not None:
            self.syncer.push_loop.want()

    def _kept(self, identity: Identity, entries: list[Entry]) -> KeptGroup:
        return KeptGroup(identity, entries=entries, on_error=self.announcer.error, **self._group)

    def _kept_in(self, store: tuple[Path, Durability], identity: Identity) -> KeptGroup:
        """The first group in the folder that no process holds, or a new one."""
        folder, durability = store
        folder.mkdir(parents=True, exist_ok=True)
        for left in left_behind(folder):
            try:
                kept = self._restored(left, identity)
                if kept is not None:
                    kept.keep_in(JournalFile.adopted(left, durability))
                    return kept
            except BaseException:
                left.let_go()
                raise
            left.let_go()
        kept = self._kept(identity, [])
        kept.keep_in(JournalFile.new(folder, identity, durability))
        return kept

    def _restored(self, left: Left, wanted: Identity) -> KeptGroup | None:
        """The group that a process left; None where it is of another schema or profile, or can't be played."""
        if left.identity is None or left.identity[1:] != wanted[1:]:
            return None
        try:
            kept = self._kept(left.identity, left.entries)
        except Unplayable as error:
            self.announcer.error("store", error)  # what is pending there is recovered
            return None
        aside = left.keep_damaged()
        if aside is not None:
            self.announcer.set_aside(aside)
        return kept

    def _mutated(self, keys: set[str] | None) -> None:
        self.teller.changed(keys)
        self.syncer.push_loop.want()

    def close(self) -> None:
        """Ends the threads, and then the group."""
        with self._lock:
            if self._is_closed:
                return
            self._is_closed = True
        for other in self._others:
            other.end()
        self.syncer.push_loop.end()
        self.syncer.pull_loop.end()
        self.teller.end()
        self._join(JOIN)
        self.at_end()  # ends the requests that are still under way
        self._join(JOIN / 4)
        self.kept.close()

    def _join(self, seconds: float) -> None:
        end = time.monotonic() + seconds
        for thread in self._threads:
            if thread is not threading.current_thread():
                thread.join(max(0.0, end - time.monotonic()))


class Replicache:
    """A client of a client group (Replicache: `Replicache`).

    The one that is opened opens the group; `client()` makes another one of it, for another thread or another part of
    the program. A client may be called from any thread; two threads that call one client wait for each other. Callbacks
    may call everything; a query and a mutator call their transaction alone (else RuntimeError).

    IDs: each client gets a fresh UUID, and a process has no way to choose one. **An ID is for one life of a client**,
    unless its group was restored: in a new group its mutations would be numbered from 1 again, and a server that has
    done so many of its earlier life would skip and confirm them, so they would be lost unseen. A group that `store`
    restores goes on with its group ID; what was pending keeps its clients' IDs and numbers, and new clients make what
    is new.

    Options, with Replicache's name where it is another; times are seconds:

    - `push_url`, `pull_url` (pushURL, pullURL): where requests are posted. Without one there are none of the kind.
    - `poke_url` (not Replicache's): a stream of server-sent events; a pull is made whenever a line of data comes.
    - `auth`, `get_auth`: the header `authorization`, if any; at a 401 `get_auth` answers another one, or None to give
      up. It is called on the thread of the request.
    - `mutators`: functions by name, as `def add(tx, args)`. Or `rules`: mutators as data (`docs/RULES.md`), which a
      server in another language can run too. A group has one of the two, and neither is changed afterwards.
    - `schema_version` (schemaVersion): goes with each request, and says which groups of a store may be restored.
    - `profile_id` (Replicache makes its own profileID): likewise.
    - `pull_interval` (pullInterval, 60): a pull is made after so long without one; None: never.
    - `push_delay` (pushDelay, 0.010): so long a push waits for more mutations.
    - `request_options` (requestOptions): delays after failures, time and size of a response.
    - `pusher`, `puller`: functions that send a body in place of `push_url` and `pull_url`. `transport`: one that posts
      to any URL, in place of urllib3.
    - `store` (Replicache: `name`, in IndexedDB): a folder where the group outlives the process. A folder is for one
      user and one server. None: the group lives in memory.
    - `durability` (not Replicache's): `fsync` or `write`: what a mutation has reached when it returns (`store.py`).
    - `clients`: how many clients may be open at once, 1 to 251. `slots`: with how many the group begins, of 8 bytes
      each until they are used; it grows.

    Callbacks, on a thread of their own:

    - `on_online_change` (onOnlineChange): whether the last request was answered with the status 200.
    - `on_sync` (onSync): whether a push or a pull is under way.
    - `on_update_needed` (onUpdateNeeded): the server does not support a version. Pushes and pulls end; queries and
      mutations go on. Reload the program, which here means: install another one.
    - `on_client_state_not_found` (onClientStateNotFound): the server does not know the group. Queries go on, mutations
      raise `Closed`: close this one and open a new one. With a store what was pending is set aside first.
    - `on_set_aside` (not Replicache's): mutations or a file that no process can send or read any more; see `SetAside`.
    - `on_error` (not Replicache's): `what` failed so that trying again may not mend it. It is tried again all the same.
    """

    def __init__(
        self,
        *,
        push_url: str = "",
        pull_url: str = "",
        poke_url: str = "",
        auth: str = "",
        get_auth: Callable[[], str | None] | None = None,
        mutators: Mapping[str, Mutator] | None = None,
        rules: dict[str, Json] | None = None,
        schema_version: str = "",
        profile_id: str = "giqaymu",
        pull_interval: float | None = 60.0,
        push_delay: float = 0.010,
        request_options: RequestOptions = RequestOptions(),
        pusher: Poster | None = None,
        puller: Poster | None = None,
        transport: Transport | None = None,
        store: str | Path | None = None,
        durability: Durability = "fsync",
        clients: int = 16,
        slots: int = 1 << 18,
        on_online_change: Callable[[bool], None] | None = None,
        on_sync: Callable[[bool], None] | None = None,
        on_update_needed: Callable[[UpdateNeeded], None] | None = None,
        on_client_state_not_found: Callable[[], None] | None = None,
        on_set_aside: Callable[[SetAside], None] | None = None,
        on_error: Callable[[str, Exception], None] | None = None,
    ) -> None:
        group = {**_mutators(mutators, rules), "slots": slots, "clients": clients}
        folder = _folder(store, durability)
        posters, at_end = _posters(request_options, transport, push=(pusher, push_url), pull=(puller, pull_url))
        syncing: dict[str, Any] = {**posters, "auth": auth, "get_auth": get_auth}
        pace = {"push_delay": push_delay, "pull_interval": pull_interval}
        told = on_online_change, on_sync, on_update_needed, on_client_state_not_found, on_set_aside, on_error
        identity = Identity(str(uuid.uuid4()), profile_id, schema_version)
        shared = _Shared(identity, group, {**syncing, **pace}, Callbacks(*told), request_options, folder, poke_url)
        shared.at_end = at_end
        self._sit(shared)

    def _sit(self, shared: _Shared) -> None:
        self._shared = shared
        self._kept = shared.kept
        self._seat = shared.kept.sit()
        self.client_id = self._seat.client
        """The client's ID (Replicache: `clientID`)."""
        self.mutate = Mutate(self._kept, self._seat)

    def client(self) -> Replicache:
        """Another client of the group. ValueError where as many are open as there may be (`clients`)."""
        other = Replicache.__new__(Replicache)
        other._sit(self._shared)
        return other

    @property
    def client_group_id(self) -> str:
        """The group's ID (Replicache: `clientGroupID`, a promise)."""
        return self._kept.identity.group

    @property
    def online(self) -> bool:
        """Whether the last request was answered with the status 200 (Replicache: `online`)."""
        return self._shared.syncer.online

    def query(self, query: Query) -> Json:
        """What the query answers, as of one moment (Replicache: `query`, a promise).

        It does nothing but read and answer. What it raises is raised. Raises `Closed`.
        """
        return self._kept.query(self._seat, query)

    def subscribe(
        self,
        query: Query,
        on_data: Callable[[Json], None],
        *,
        on_error: Callable[[Exception], None] | None = None,
        is_equal: Callable[[Json, Json], bool] = lambda old, new: bool(old == new),
    ) -> Callable[[], None]:
        """Calls `on_data` with the query's result, soon, and again whenever it differs (Replicache: `subscribe`).

        The query runs again only where a key or a prefix that it read may have changed; with rules, after each change.
        What it raises goes to `on_error`, or else to the log. What this answers ends the subscription.
        """
        return self._shared.teller.add(Subscription(query, on_data, on_error, is_equal))

    def experimental_watch(
        self,
        callback: Callable[[list[Diff]], None],
        *,
        prefix: str = "",
        initial_values_in_first_diff: bool = False,
    ) -> Callable[[], None]:
        """Calls back with what differs below the prefix, in the order of keys (Replicache: `experimentalWatch`).

        It keeps the rows below the prefix in memory. What this answers ends the watch.
        """
        teller, rows = self._shared.teller, self._kept.rows(prefix)
        unsubscribe = teller.add(Watch(callback, prefix, rows, tells_first=initial_values_in_first_diff))

        def end() -> None:
            unsubscribe()
            teller.later(rows.end)

        return end

    def on_change(self, listener: Callable[[], None]) -> Callable[[], None]:
        """Calls the listener, soon, and whenever the map, what is pending or `online` may have changed.

        Not Replicache's. What this answers ends it.
        """
        return self._shared.teller.add(Listener(listener))

    def experimental_pending_mutations(self) -> list[PendingMutation]:
        """What the group has pending, the oldest first (Replicache: `experimentalPendingMutations`, a promise)."""
        return [mutation.told() for mutation in self._kept.pending()]

    def push(self, *, now: bool = False) -> Future[None]:
        """Wants a push (Replicache: `push`). With `now` it waits for no delay.

        The future is done when a push that began after this call succeeded; being offline is no failure. It raises
        `Closed` where the group was closed first.
        """
        return self._shared.syncer.push_loop.send(urgent=now)

    def pull(self, *, now: bool = False) -> Future[None]:
        """Wants a pull (Replicache: `pull`). As `push`."""
        return self._shared.syncer.pull_loop.send(urgent=now)

    def poke(self) -> Future[None]:
        """The server has something new: a pull at once. Replicache's `poke` takes the data; this one asks for it."""
        return self.pull(now=True)

    def leave(self) -> None:
        """This client ends; the group and what is pending stay. Not Replicache's, whose groups have a client each."""
        self._kept.leave(self._seat)

    def close(self) -> None:
        """Ends the group with all its clients (Replicache: `close`, a promise).

        Waits two seconds for what goes on, and then gives it up. What is pending is lost without a store; with one the
        next process has it.
        """
        self._shared.close()

    def __enter__(self) -> Replicache:
        return self

    def __exit__(
        self, kind: type[BaseException] | None, error: BaseException | None, trace: TracebackType | None
    ) -> None:
        self.close()


def _mutators(mutators: Mapping[str, Mutator] | None, rules: dict[str, Json] | None) -> dict[str, Any]:
    """What a group's mutations run. ValueError where both are given."""
    if mutators is not None and rules is not None:
        raise ValueError("a group has mutators or rules, not both")
    return {"mutators": mutators, "rules": rules}


def _folder(store: str | Path | None, durability: Durability) -> tuple[Path, Durability] | None:
    """Where a group is kept, and how. ValueError where the durability is none."""
    if durability not in ("fsync", "write"):
        raise ValueError(f"durability is fsync or write, not {durability!r}")
    return None if store is None else (Path(store), durability)


def _posters(
    options: RequestOptions,
    transport: Transport | None,
    *,
    push: tuple[Poster | None, str],
    pull: tuple[Poster | None, str],
) -> tuple[dict[str, Poster | None], Callable[[], None]]:
    """What sends pushes and pulls, each a function of the program's or a URL; and what ends the requests."""
    close: Callable[[], None] = lambda: None
    if transport is None and any(url and not poster for poster, url in (push, pull)):
        from .http_transport import Http  # here: see the head of its module

        transport = http = Http(options)
        close = http.close
    return {"pusher": push[0] or _poster(transport, push[1]), "puller": pull[0] or _poster(transport, pull[1])}, close


def _poster(post: Transport | None, url: str) -> Poster | None:
    """Posts to this URL; None without one."""
    if not url or post is None:
        return None
    return functools.partial(post, url)
