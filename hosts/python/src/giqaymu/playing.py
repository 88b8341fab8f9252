"""How a group is made of its entries, and how its mutators are run.

A mutator of the program's own is run for three reasons. The *first* run is the client's call: what it answers and what
it raises go to the caller. It is run *again* by a rebase, and where entries are played: what it raises then is a
refusal, so that one mutation which can't be done any more doesn't stop all pulls. The key sets that the runs leave here
say what a change may have changed; they are never too small.

First runs and playing are done with the lock of the group's changes held, rebases by the pull's thread alone. So each
field has one writer at a time.
"""

from __future__ import annotations

import threading
from collections.abc import Callable, Mapping
from typing import Any

from . import edge
from .edge import Draft, Group, Place, Refusal, Refuse, Why
from .journal import Entry, Mutation, Response
from .store import Identity
from .transactions import Mutator, WriteTransaction

Json = Any

PUSH, PULL, TELL, PLAY, HOUSE = range(5)
"""The places of the layer's own; clients of the program have those from `HOUSE` on, and their queries those behind."""
MOST_SLOTS = 1 << 24
"""The most slots that a group may have."""
STOPS = (Why.NO_MEMORY, Why.MOVED, Why.BUSY, Why.GONE, Why.FULL, Why.NO_PLACE)
"""Refusals of a run's calls that say nothing about the mutator: the change is given up."""


class TooLarge(Refusal):
    """The group would need more slots than there may be."""

    def __init__(self) -> None:
        super().__init__(Why.FULL)

    def __str__(self) -> str:
        return (
            f"FULL: the group needs more than {MOST_SLOTS:,} slots, the most that it can have: let the server confirm "
            "what is pending, or keep fewer rows in the map"
        )


class Unplayable(Exception):
    """The entries do not give the group that they were written for: the rules are others."""


class Inside(threading.local):
    """Whether this thread runs a query or a mutator."""

    busy = False


class Runs(dict[str, edge.Mutator]):
    """The program's mutators, as the library calls them."""

    def __init__(
        self, mutators: Mapping[str, Mutator], inside: Inside, on_error: Callable[[str, Exception], None]
    ) -> None:
        super().__init__({name: self._bound(name, mutator) for name, mutator in mutators.items()})
        self.result: Json = None
        """What the last first run answered."""
        self.writes: set[str] = set()
        """The keys that it wrote."""
        self.written_again: set[str] = set()
        """The keys that runs wrote which were not first, until somebody takes them."""
        self.before_rebase: Callable[[], None] = lambda: None
        """Called before each run of a rebase."""
        self.is_playing = False
        self.is_idle = False
        """Whether each name has a mutator that does nothing."""
        self._inside, self._on_error = inside, on_error

    def get(self, name: str, default: Any = None) -> Any:
        """The mutator of the name."""
        return _nothing if self.is_idle else super().get(name, default)

    def _bound(self, name: str, mutator: Mutator) -> edge.Mutator:
        def run(draft: Draft, args: Json) -> None:
            inside, inside.busy = self._inside, True
            try:
                if draft.rebase or self.is_playing:
                    self._again(name, mutator, draft, args)
                else:
                    writes: set[str] = set()
                    self.result = mutator(WriteTransaction(draft, "initial", writes), args)
                    self.writes = writes
            finally:
                inside.busy = False

        return run

    def _again(self, name: str, mutator: Mutator, draft: Draft, args: Json) -> None:
        if not self.is_playing:
            self.before_rebase()
        writes: set[str] = set()
        try:
            mutator(WriteTransaction(draft, "rebase", writes), args)
        except Refuse:
            raise
        except Exception as error:
            if isinstance(error, Refusal) and error.why in STOPS:
                raise
            self._on_error(f"mutator {name}", error)
            raise Refuse(0) from error
        finally:
            self.written_again |= writes


def _nothing(draft: Draft, args: Json) -> None:
    """A run that does nothing."""


class Opened:
    """An opening of the library's group. Its places are closed when nobody uses it any more."""

    def __init__(self, places: list[Place], slots: int) -> None:
        self.places, self.slots = places, slots


def _has_room(place: Place, slots: int) -> bool:
    """Whether changes find a quarter of the slots free: else the next ones would have all played once more."""
    found = place.slots()
    return 4 * (found.ordinary + found.retired) >= slots


class Player:
    """Opens groups of one identity with these mutators or rules, and plays entries in them.

    A group has places for so many clients of the program, and behind them so many at which queries are read.
    """

    def __init__(
        self, identity: Identity, runs: Runs | None, rules: dict[str, Json] | None, *, clients: int, readers: int
    ) -> None:
        self._identity, self._runs, self._rules = identity, runs, rules
        self._readers = range(HOUSE + clients, HOUSE + clients + readers)

    def opened(self, entries: list[Entry], slots: int) -> Opened:
        """A group that is what the entries say, of so many slots, or twice as many, until changes have room there.

        Raises `Unplayable`, and `TooLarge` where no group has so many.
        """
        while slots <= MOST_SLOTS:
            places = self._opened(slots)
            try:
                self._play_in(places, entries)
                if 2 * slots > MOST_SLOTS or _has_room(places[TELL], slots):
                    return Opened(places, slots)
            except Refusal as refusal:
                if refusal.why in STOPS and refusal.why is not Why.FULL:
                    raise
                if refusal.why is not Why.FULL:
                    raise Unplayable(str(refusal)) from refusal
            slots *= 2
        raise TooLarge

    def _opened(self, slots: int) -> list[Place]:
        """The places of a new group. What is refused here, as faulty rules, is the program's fault."""
        profile, schema = self._identity.profile, self._identity.schema
        group = Group(self._identity.group, profile=profile, schema=schema, rules=self._rules, mutators=self._runs,
                      slots=slots, places=self._readers.stop)
        for number in (PUSH, PULL, TELL, *self._readers):
            group.places[number].sit()
        return group.places

    def _play_in(self, places: list[Place], entries: list[Entry]) -> None:
        if self._runs is not None:
            self._runs.is_playing = True
        try:
            self._play(places, entries)
        finally:
            if self._runs is not None:
                self._runs.is_playing = False

    def _play(self, places: list[Place], entries: list[Entry]) -> None:
        sits = ""
        for entry in entries:
            client = entry.client if isinstance(entry, Mutation) else ""
            if sits != client:
                if sits:
                    places[PLAY].leave()
                sits = client
                if client:
                    places[PLAY].sit(client)  # reads the client's last id, which a response may have raised
            if isinstance(entry, Response):
                places[PULL].end_pull(places[PULL].begin_pull(), entry.body())
            else:
                self._make(places[PLAY], entry)
        if sits:
            places[PLAY].leave()

    def _make(self, place: Place, mutation: Mutation) -> None:
        """Makes a mutation again. One that refuses by now stays pending by a run that does nothing, if one may run."""
        words = mutation.name, mutation.args, mutation.timestamp
        try:
            number = place.mutate_json(*words)
        except Refusal as refusal:
            if self._runs is None or refusal.why not in (Why.REFUSED, Why.NO_MUTATOR):
                raise
            self._runs.is_idle = True
            try:
                number = place.mutate_json(*words)
            finally:
                self._runs.is_idle = False
        if number != mutation.id:
            raise Unplayable(f"mutation {mutation.id} of client {mutation.client} would have the ID {number}")
