"""What a group is, as data: the entries by which an empty group becomes it.

A group is its pulled map, its cookie, the confirmed ids of its clients, and its pending mutations. A rebase equals a
replay from scratch. So a response that has the map, and then the pending mutations made again, give the group anew,
with the same ids: these are the *shortest* entries. But a mutation that was done once may refuse by now, since the
server's rows are others; it stays pending and changes nothing. Where mutators are the program's own it is made again by
a run that does nothing. Rules can't be told to. So for rules the journal keeps the entries in the order in which they
changed the group: played *as they were written* each mutation is run on the map that it was done on. They may be cut to
the shortest where nothing is pending, or where somebody tried that these play.

No lock: the lock of the group's changes (`groups.py`) is held over each call.
"""

from __future__ import annotations

import json
import uuid
from typing import Any, NamedTuple

from .edge import json_bytes

Json = Any


class PendingMutation(NamedTuple):
    """A mutation that the server has not confirmed (Replicache: `PendingMutation`)."""

    client_id: str
    id: int
    name: str
    args: Json


class Mutation(NamedTuple):
    """A mutation as the group made it. `args` is JSON, which nobody can change any more."""

    client: str
    id: int
    name: str
    args: bytes
    timestamp: int

    def told(self) -> PendingMutation:
        """The mutation as a program is told of it."""
        return PendingMutation(self.client, self.id, self.name, json.loads(self.args))

    def text(self) -> bytes:
        """The mutation as a push body has it."""
        client, name = self.client.encode(), json_bytes(self.name)
        words = self.args, client, self.id, name, self.timestamp
        return b'{"args":%b,"clientID":"%b","id":%d,"name":%b,"timestamp":%d}' % words


class Response(NamedTuple):
    """A pull response that was applied: its cookie, its last mutation IDs and its patch."""

    cookie: Json
    confirmed: dict[str, int]
    patch: list[dict[str, Json]]

    def body(self) -> bytes:
        """The response as a server would send it."""
        return json_bytes({"cookie": self.cookie, "lastMutationIDChanges": self.confirmed, "patch": self.patch})


Entry = Mutation | Response


def response_of(value: Json) -> Response:
    """The response that this JSON is. KeyError, TypeError or ValueError where it is none."""
    patch = [{name: op[name] for name in ("op", "key", "value") if name in op} for op in value["patch"]]
    if any(op["op"] != "clear" and not isinstance(op["key"], str) for op in patch):
        raise ValueError("a key is no text")
    confirmed = {str(client): int(last) for client, last in value["lastMutationIDChanges"].items()}
    return Response(value["cookie"], confirmed, patch)


def mutation_of(value: Json) -> Mutation:
    """The mutation that this JSON of a push body is. KeyError, TypeError or ValueError where it is none."""
    name, client = value["name"], value["clientID"]
    if not isinstance(name, str) or str(uuid.UUID(client)) != client:
        raise ValueError("a name is no text, or an ID no UUID as it is written here")
    return Mutation(client, int(value["id"]), name, json_bytes(value["args"]), int(value["timestamp"]))


class State:
    """What a group is. The pending mutations are in the group's order, the oldest first."""

    def __init__(self) -> None:
        self.pulled: dict[str, Json] = {}
        self.cookie: Json = None
        self.confirmed: dict[str, int] = {}
        self.pending: dict[tuple[str, int], Mutation] = {}

    def make(self, mutation: Mutation) -> None:
        """A mutation was made."""
        self.pending[mutation.client, mutation.id] = mutation

    def apply(self, response: Response) -> None:
        """A response was applied."""
        self.cookie = response.cookie
        self.confirmed.update(response.confirmed)
        for op in response.patch:
            if op["op"] == "clear":
                self.pulled.clear()
            elif op["op"] == "put":
                self.pulled[op["key"]] = op["value"]
            else:
                self.pulled.pop(op["key"], None)
        if response.confirmed:
            for key in [key for key in self.pending if key[1] <= self.confirmed.get(key[0], 0)]:
                del self.pending[key]

    def response(self) -> Response:
        """One response that says all that was pulled."""
        puts = [{"op": "put", "key": key, "value": value} for key, value in self.pulled.items()]
        return Response(self.cookie, dict(self.confirmed), [{"op": "clear"}, *puts])

    def leaves_pending(self, response: Response) -> bool:
        """Whether something will be pending when this response was applied."""
        return any(number > response.confirmed.get(client, 0) for client, number in self.pending)

    def snapshot(self) -> State:
        """What is pulled by now, without what is pending."""
        copy = State()
        copy.pulled, copy.cookie, copy.confirmed = dict(self.pulled), self.cookie, dict(self.confirmed)
        return copy

    def shortest(self) -> list[Entry]:
        """The shortest entries that make it."""
        pulled: list[Entry] = [] if self.cookie is None else [self.response()]
        return pulled + list(self.pending.values())

    def forget_quiet(self) -> None:
        """Forgets the ids of clients that have nothing pending. For a new process: no such client lives any more."""
        clients = {mutation.client for mutation in self.pending.values()}
        self.confirmed = {client: last for client, last in self.confirmed.items() if client in clients}


class Journal:
    """The state of a group and, where the order counts (`ordered`), its entries since they were cut last."""

    def __init__(self, *, ordered: bool, entries: list[Entry] | None = None) -> None:
        self.state = State()
        self.ordered = ordered
        self._base: State | None = State()
        """What was pulled when the entries were cut. None: what is pulled now."""
        self._since: list[Entry] = []
        for entry in entries or []:
            if isinstance(entry, Mutation):
                self.make(entry)
            else:
                self.apply(entry)

    def make(self, mutation: Mutation) -> None:
        """A mutation was made."""
        self.state.make(mutation)
        if self.ordered:
            self._since.append(mutation)

    def apply(self, response: Response) -> None:
        """A response was applied."""
        if not self.ordered:
            self.state.apply(response)
            return
        if self._base is None and self.state.leaves_pending(response):
            self._base = self.state.snapshot()
        self.state.apply(response)
        self._since.append(response)
        if not self.state.pending:
            self.cut()

    def cut(self) -> None:
        """Cuts the entries to the shortest. Ask for it where these play: always where nothing is pending."""
        self._base, self._since = None, list(self.state.pending.values())

    def written(self) -> list[Entry]:
        """The entries as they were written, or the shortest where the order does not count."""
        if not self.ordered or self._base is None:
            return self.state.shortest()
        return self._base.shortest() + self._since

    def length(self) -> int:
        """How many entries were not cut."""
        return len(self._since)
