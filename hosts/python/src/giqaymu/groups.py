"""A group that grows, and that outlives its process: the library's group, its journal, and who may change them when.

`_gate` is the lock of changes, and `_turn` a turnstile before it, which a pull holds while it waits for the gate: so it
gets there, however fast mutations come. A mutation holds the gate from the run of its mutator until its entry is in the
journal, so the journal has the group's order. With rules an end of a pull, one call of the library, holds it as well.
Where mutators are the program's own, an end of a pull runs them for all that is pending, which may take seconds: it
takes the gate when it is recorded, and earlier if mutations made it begin anew too often. So mutations don't wait for a
rebase, and can't put it off for ever. The order between a mutation and a response does not count there (`journal.py`).

A library's group never grows. Where a change is refused with `Full` a group of twice the slots is opened, what the
journal has is played in it, and it takes the other's place: with the gate held, by the thread that met it, and not
while a pull ends on another thread, which is waited for. Queries go on in the old group, whose map is the same.

A query is a reading of the library, as of one moment. It has a place so long, which is not its client's own: so no
change waits for a query, and a query for none, but for another query of its client.

Locks are taken in this order: the turnstile, the gate, a place's. The pull's thread has its own place's when it takes
the gate; no other thread calls that place.
"""

from __future__ import annotations

import contextlib
import json
import threading
import time
from collections.abc import Callable, Mapping
from typing import Any

from .edge import Diff, Ended, Place, Reading, Refusal, Ticket, Watch, Why, json_bytes
from .journal import Entry, Journal, Mutation, Response, mutation_of, response_of
from .loops import Closed
from .playing import HOUSE, MOST_SLOTS, PULL, PUSH, TELL, Inside, Opened, Player, Runs, TooLarge, Unplayable
from .store import Identity, JournalFile, SetAside
from .subscriptions import Moment
from .transactions import Mutator, NotingTransaction, Query, QueryTransaction, Reads

Json = Any

MOST_PLACES = 256
MOST_CLIENTS = MOST_PLACES - HOUSE - 1
TRIES = 50
"""How often a change is tried that a refusal only puts off."""
WAIT = 60.0
"""How many seconds a change waits for a pull that ends on another thread, at the most."""
AGAIN = (Why.MOVED, Why.BUSY, Why.GONE)
LOST = "the server does not know the group any more: open a new one"
ALONE = "a query or a mutator calls its transaction alone, not a client"
CUT = 1000
"""From how many entries on a journal of rules is tried for whether it may be cut."""


class NotSafe(Exception):
    """The mutation was made, and is shown and pushed, but it could not be written to the disk.

    Each mutation after it tries to write all of the group anew, and raises this too until that succeeds. `id` is the
    mutation's, `result` what its mutator answered.
    """

    def __init__(self, number: int, result: Json, error: OSError) -> None:
        super().__init__(f"mutation {number} is not on the disk: {error}")
        self.id, self.result = number, result


class Seat:
    """Where a client of the program sits, until it leaves, and where its queries are read."""

    def __init__(self, number: int, reader: int, client: str) -> None:
        self.number, self.reader, self.client = number, reader, client
        self.last = 0
        """The ID of its last mutation that the journal has."""
        self.has_left = False


class Rows:
    """The rows with a prefix, which the thread that calls back polls for a watch."""

    def __init__(self, prefix: str, place: Callable[[], Place]) -> None:
        """For `KeptGroup` alone."""
        self._prefix, self._place_now = prefix, place
        self._place: Place | None = None
        self._watch: Watch | None = None
        self._is_told = False  # whether the watch told rows

    def changes(self) -> tuple[bool, list[Diff]]:
        """What differs from the last time; or all rows as added, and True: the first time, and in a group that grew."""
        place = self._place_now()
        if self._watch is None or place is not self._place:
            self._place, self._watch, self._is_told = place, place.watch(self._prefix), False
        diffs = place.poll_changes(self._watch) or []
        is_whole, self._is_told = not self._is_told, True
        return is_whole, diffs

    def end(self) -> None:
        """Gives the watch up. It is not asked any more."""
        watch, self._watch = self._watch, None
        if watch is not None and self._place is not None:
            with contextlib.suppress(Refusal):  # the place is closed
                self._place.unwatch(watch)


class KeptGroup:
    """The group. `begin_pull`, `end_pull` and `forget_pull` are called by one thread, the rest by any."""

    def __init__(
        self,
        identity: Identity,
        *,
        mutators: Mapping[str, Mutator] | None,
        rules: dict[str, Json] | None,
        slots: int,
        clients: int,
        entries: list[Entry],
        on_error: Callable[[str, Exception], None],
    ) -> None:
        """Raises `Unplayable` where the entries do not give the group that they were written for."""
        if not 1 <= clients <= MOST_CLIENTS:
            raise ValueError(f"clients is not from 1 to {MOST_CLIENTS}: {clients}")
        self.identity = identity
        self.journal = Journal(ordered=mutators is None, entries=entries)
        self.journal.state.forget_quiet()
        self.on_mutation: Callable[[set[str] | None], None] = lambda keys: None
        """Called after each mutation, with the keys that it may have changed; None: any."""
        self._turn = threading.Lock()
        self._lock = threading.Lock()
        self._gate = threading.Condition(self._lock)
        self._on_error = on_error
        self._inside = Inside()
        self._runs = None if mutators is None else Runs(mutators, self._inside, on_error)
        if self._runs is not None:
            self._runs.before_rebase = self._lose_patience
        self._clients, self._readers = clients, min(clients, MOST_PLACES - HOUSE - clients)
        self._player = Player(identity, self._runs, rules, clients=clients, readers=self._readers)
        self._file: JournalFile | None = None
        self._seats: list[Seat] = []
        self._is_closed = self._is_lost = False
        self._pulling = False
        self._ticket: tuple[Place, Ticket] | None = None
        self._holds = False  # whether the pull's thread has the gate
        self._patience = 0
        self._next_cut = CUT
        self._pending_keys: set[str] = set()  # that runs of what is pending wrote: never too few
        self._opened = self._restored(slots)

    def keep_in(self, file: JournalFile) -> None:
        """Each change is written to the file from now on."""
        with self._lock:
            self._file = file

    # ---- opening and growing

    def _restored(self, slots: int) -> Opened:
        """A group that is what the journal says, of at least so many slots."""
        journal = self.journal
        try:
            opened = self._player.opened(journal.state.shortest(), slots)
            journal.cut()
        except Unplayable:
            if not journal.ordered:
                raise
            opened = self._player.opened(journal.written(), slots)
        for seat in self._seats:
            opened.places[seat.number].sit(seat.client)
        self._pending_keys |= self._taken_again()
        return opened

    def _taken_again(self) -> set[str]:
        """The keys that runs wrote which were not first."""
        if self._runs is None:
            return set()
        keys, self._runs.written_again = self._runs.written_again, set()
        return keys

    def _grow(self) -> None:
        """Twice the slots. With the gate held, and no pull that ends on another thread."""
        if 2 * self._opened.slots > MOST_SLOTS:
            raise TooLarge
        self._opened = self._restored(2 * self._opened.slots)

    @property
    def slots(self) -> int:
        """How many slots the group has by now."""
        return self._opened.slots

    # ---- clients

    def sit(self) -> Seat:
        """A client of a fresh ID. ValueError where as many are open as there may be."""
        with self._lock:
            self._check_open()
            free = set(range(HOUSE, HOUSE + self._clients)) - {seat.number for seat in self._seats}
            if not free:
                raise ValueError(f"{self._clients} clients are open: let one leave, or ask for more (clients=)")
            number = min(free)
            reader = HOUSE + self._clients + (number - HOUSE) % self._readers
            self._seats.append(Seat(number, reader, self._opened.places[number].sit()))
            return self._seats[-1]

    def leave(self, seat: Seat) -> None:
        """The client ends; what it made stays pending."""
        with self._lock:
            if not seat.has_left and not self._is_closed:
                self._seats.remove(seat)
                self._opened.places[seat.number].leave()
            seat.has_left = True

    def _check_open(self, seat: Seat | None = None) -> None:
        if self._is_closed:
            raise Closed("the group is closed")
        if self._is_lost:
            raise Closed(LOST)
        if seat is not None and seat.has_left:
            raise Closed("the client has left")

    # ---- mutations

    def mutate(self, seat: Seat, name: str, args: Json) -> Json:
        """Makes a mutation: what its mutator answered. With a file it is on the disk by then, else `NotSafe`."""
        if self._inside.busy:
            raise RuntimeError(ALONE)
        text = json_bytes(args)
        now = time.time_ns() // 1_000_000
        result, keys, failed, number, mark = None, None, None, 0, 0
        with self._turn:
            pass  # a pull that waits for the gate is let by
        with self._lock:
            try:
                number = self._made(seat, name, text, now)
                if self._runs is not None:
                    result, keys = self._runs.result, self._runs.writes
                    self._pending_keys |= keys
                mark = self._note(seat, Mutation(seat.client, number, name, text, now))
            except OSError as error:
                if number == 0:
                    raise
                failed = error
            except BaseException as error:
                if not isinstance(error, (Refusal, Closed)):
                    self._catch_up(seat)
                raise
        self.on_mutation(keys)
        if failed is not None:
            raise NotSafe(number, result, failed)
        if mark:
            self._settle(mark, number, result)
        return result

    def _made(self, seat: Seat, name: str, args: bytes, now: int) -> int:
        """Makes the mutation, with the gate held: its ID."""
        for _ in range(TRIES):
            self._check_open(seat)
            place = self._opened.places[seat.number]
            try:
                return place.mutate_json(name, args, now)
            except Refusal as refusal:
                self._mend(place, refusal)
        raise Refusal(Why.MOVED)

    def _note(self, seat: Seat, mutation: Mutation) -> int:
        """The journal has a mutation that was made, and the file: its mark, 0 without a file. OSError."""
        self.journal.make(mutation)
        seat.last = mutation.id
        return 0 if self._file is None else self._file.append(mutation, self.journal.written)

    def _catch_up(self, seat: Seat) -> None:
        """Where an interrupt came between the library's change and the journal, the journal has it too.

        Else the group that grows next would lack the mutation, and give its ID to another one.
        """
        if self._is_closed or self._opened.places[seat.number].refresh() == seat.last:
            return
        for one in json.loads(self._opened.places[PUSH].push())["mutations"]:
            if (one["clientID"], one["id"]) not in self.journal.state.pending:
                with contextlib.suppress(OSError):
                    self._note(seat, mutation_of(one))

    def _mend(self, place: Place, refusal: Refusal) -> None:
        if refusal.why is Why.STALE:
            place.refresh()
        elif refusal.why is Why.FULL:
            if not self._pulling:
                self._grow()
            elif not self._gate.wait_for(lambda: not self._pulling, WAIT):
                raise refusal
        elif refusal.why is Why.CLOSED:
            raise Closed(LOST) from refusal
        elif refusal.why not in AGAIN:
            raise refusal

    def _settle(self, mark: int, number: int, result: Json) -> None:
        """Waits until the file is on the disk. Where the disk refuses, the group goes to a new file."""
        assert self._file is not None
        try:
            self._file.settle(mark)
        except OSError:
            try:
                with self._lock:
                    self._file.replace(self.journal.written())
            except OSError as error:
                raise NotSafe(number, result, error) from error

    def pending(self) -> list[Mutation]:
        """What is pending, the oldest first."""
        with self._lock:
            return list(self.journal.state.pending.values())

    def oldest(self) -> tuple[str, int] | None:
        """The client and the ID of the oldest pending mutation."""
        with self._lock:
            return next(iter(self.journal.state.pending), None)

    def unpushed(self, pushed: Mapping[str, int]) -> tuple[int, tuple[str, int]] | None:
        """How many of the oldest pending mutations are no later than these last IDs of clients, and the next one."""
        with self._lock:
            for skip, (client, number) in enumerate(self.journal.state.pending):
                if number > pushed.get(client, 0):
                    return skip, (client, number)
        return None

    def push_body(self, skip: int = 0) -> bytes:
        """The body of a push of what is pending, but for the oldest so many."""
        return self._place(PUSH).push(skip)

    # ---- pulls

    def begin_pull(self) -> bytes:
        """Begins a pull: the body of its request."""
        place = self._place(PULL)
        ticket = place.begin_pull()
        self._ticket = place, ticket
        return ticket.body

    def forget_pull(self) -> None:
        """No response came."""
        begun, self._ticket = self._ticket, None
        if begun is not None:
            with contextlib.suppress(Refusal):
                begun[0].forget(begun[1])

    def end_pull(self, body: bytes) -> tuple[Ended, set[str] | None]:
        """Ends the pull with the response's body: how, and the keys that may have changed; None: any."""
        with self._lock:
            self._check_open()
            self._pulling = True
            before, self._pending_keys = self._pending_keys, set()
        try:
            if self._runs is None:
                self._hold()
            ended = self._ended(body)
            self._hold()
            if ended is Ended.SAME:
                return ended, set()
            # What was pending before may be shown no more; what still is was run again.
            rebased = self._taken_again()
            keys = self._record(response_of(json.loads(body)))
            told = None if keys is None or self._runs is None else keys | before | rebased | self._pending_keys
            before = rebased
            return ended, told
        finally:
            self._hold()
            self._pending_keys |= before
            self._pulling = self._holds = False
            self._gate.notify_all()
            self._lock.release()

    def _ended(self, body: bytes) -> Ended:
        for _ in range(TRIES):
            place = self._place(PULL)
            begun, self._ticket = self._ticket, None
            # In a group that has grown since, the response is ended too: the cookie that was asked for is the same.
            ticket = begun[1] if begun is not None and begun[0] is place else place.begin_pull()
            self._patience = 2 * len(self.journal.state.pending) + 16
            try:
                return place.end_pull(ticket, body)
            except Refusal as refusal:
                if refusal.why is Why.FULL:
                    self._hold()
                    self._grow()
                elif refusal.why not in AGAIN:
                    raise
        raise Refusal(Why.MOVED)

    def _lose_patience(self) -> None:
        """Before each run of a rebase: where mutations made it begin anew too often they wait until it has ended."""
        self._patience -= 1
        if self._patience < 0:
            self._hold()

    def _hold(self) -> None:
        """The pull's thread takes the gate, until the pull has ended."""
        if not self._holds:
            with self._turn:
                self._lock.acquire()
            self._holds = True

    def _record(self, response: Response) -> set[str] | None:
        """A response was applied: the keys of its patch; None: any. One that isn't written the next process pulls."""
        self.journal.apply(response)
        try:
            if self._file is not None:
                self._file.append(response, self.journal.written)
            self._shorten()
        except OSError as error:
            self._on_error("store", error)
        if any(op["op"] == "clear" for op in response.patch):
            return None
        return {op["key"] for op in response.patch}

    def _shorten(self) -> None:
        journal = self.journal
        if journal.ordered and journal.length() >= self._next_cut:
            with contextlib.suppress(Unplayable, Refusal):
                self._player.opened(journal.state.shortest(), self._opened.slots)
                journal.cut()
            self._next_cut = max(CUT, 2 * journal.length())
        if self._file is not None and self._file.is_long():
            self._file.replace(journal.written())

    # ---- queries

    def _place(self, number: int) -> Place:
        return self._place_of(self._opened, number)

    def _place_of(self, opened: Opened, number: int) -> Place:
        if self._is_closed:
            raise Closed("the group is closed")
        return opened.places[number]

    def query(self, seat: Seat | None, query: Query, reads: Reads | None = None) -> Json:
        """What the query answers, as of one moment. Without a seat it is a subscription's, and notes what it read."""
        if self._inside.busy:
            raise RuntimeError(ALONE)
        if seat is not None and seat.has_left:
            raise Closed("the client has left")
        with self._place(TELL if seat is None else seat.reader).reading() as reading:
            self._inside.busy = True
            try:
                return query(_transaction(reading, seat, reads))
            finally:
                self._inside.busy = False

    def rows(self, prefix: str) -> Rows:
        """The rows with the prefix, for a watch."""
        return Rows(prefix, lambda: self._place(TELL))

    def moment(self) -> Moment:
        """The group's moment. A group that has grown numbers its moments anew, and has more slots."""
        opened = self._opened
        return opened.slots, self._place_of(opened, TELL).moment()

    # ---- the end

    def lose(self, why: str) -> SetAside | None:
        """The server does not know the group: no mutation is made any more. What was pending is kept aside."""
        with self._lock:
            self._is_lost = True
            return None if self._file is None else self._file.set_aside(why, self.journal.state.pending.values())

    def close(self) -> None:
        """The group is closed. The journal's file stays, and its lock is let go."""
        with self._lock:
            self._is_closed = True
            if self._file is not None:
                self._file.close()
            # The library closes a place when the last thread has left it.
            self._opened = Opened([], self._opened.slots)


def _transaction(reading: Reading, seat: Seat | None, reads: Reads | None) -> QueryTransaction:
    if reads is not None:
        return NotingTransaction(reading, reads)
    return QueryTransaction(reading, None if seat is None else seat.client)
