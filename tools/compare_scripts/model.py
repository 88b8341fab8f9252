"""A group of one thread: the pulled map, the cookie, the confirmed ids, what is pending, and whether it is closed."""

from collections.abc import Callable
from copy import copy
from typing import Any, NamedTuple

from wire import Refused, compact, is_int, order_of, quoted, read_response

Rows = dict[str, Any]
# What mutators mean: a name, arguments, a reason and a map, to the map after it.
Run = Callable[[str, Any, str, Rows], Rows]

# Why a mutator is run, as `tag` writes it: its client makes the mutation, or a pull was applied under it.
INITIAL, REBASE = "i", "r"


class Mutation(NamedTuple):
    client: str
    id: int
    name: str
    args: Any
    time: int
    reason: str


class NoMutator(Exception):
    pass


class Declined(Exception):
    """A mutator refused, with a code."""


class Group:
    def __init__(self, identity: list[str], run: Run) -> None:
        self.identity = identity
        self.run = run
        self.pulled: Rows = {}
        self.cookie: Any = None
        self.confirmed: dict[str, int] = {}
        self.pending: list[Mutation] = []
        self.closed = False
        # The view, kept, since a group of many lines is asked for it at each.
        self.view: Rows = {}

    def as_it_is(self) -> "Group":
        """A copy that later changes leave."""
        group = copy(self)
        group.pending = list(self.pending)
        return group

    def replayed(self) -> Rows:
        rows = self.pulled
        for mutation in self.pending:
            try:
                rows = self.run(mutation.name, mutation.args, mutation.reason, rows)
            except (NoMutator, Declined):
                pass
        return rows

    def last(self, client: str) -> int:
        own = [mutation.id for mutation in self.pending if mutation.client == client]
        return max([self.confirmed.get(client, 0), *own])

    def mutate(self, client: str, last: int, name: str, args: Any, time: int) -> int:
        if self.closed:
            raise Refused("Closed")
        if self.last(client) != last:
            raise Refused("Stale")
        try:
            self.view = self.run(name, args, INITIAL, self.view)
        except NoMutator as error:
            raise Refused("NoMutator") from error
        except Declined as code:
            raise Refused(f"Refused {code}") from code
        self.pending.append(Mutation(client, last + 1, name, args, time, INITIAL))
        return last + 1

    def end_pull(self, ticket: str, body: bytes) -> str:
        error, response = read_response(body)
        if self.closed:
            raise Refused("Closed")
        if error:
            self.closed = error == "StateNotFound"
            raise Refused(error)
        cookie, changes, patch = response
        if compact(self.cookie) != ticket:
            raise Refused("Overtaken")
        if order_of(cookie) < order_of(self.cookie):
            raise Refused("CookieWentBack")
        if order_of(cookie) == order_of(self.cookie):
            if compact(cookie) == ticket and not changes and not patch:
                return "same"
            raise Refused("CookieNotNew")
        if any(id < self.confirmed.get(client, 0) for client, id in changes.items()):
            raise Refused("IdWentBack")
        self.pulled = patched(self.pulled, patch)
        self.cookie = cookie
        self.confirmed |= changes
        unconfirmed = (it for it in self.pending if it.id > self.confirmed.get(it.client, 0))
        self.pending = [it._replace(reason=REBASE) for it in unconfirmed]
        self.view = self.replayed()
        return "applied"

    def scan(self, prefix: str, start: str, limit: int | None) -> list[list[Any]]:
        return scanned(self.view, prefix, start, limit)

    def push_body(self, skip: int) -> str:
        group, profile, schema = map(quoted, self.identity)
        mutations = ",".join(
            f'{{"args":{compact(it.args)},"clientID":{quoted(it.client)},"id":{it.id}'
            f',"name":{quoted(it.name)},"timestamp":{it.time}}}'
            for it in self.pending[skip:]
        )
        return (
            f'{{"clientGroupID":{group},"mutations":[{mutations}]'
            f',"profileID":{profile},"pushVersion":1,"schemaVersion":{schema}}}'
        )

    def pull_body(self) -> str:
        group, profile, schema = map(quoted, self.identity)
        return (
            f'{{"clientGroupID":{group},"cookie":{compact(self.cookie)}'
            f',"profileID":{profile},"pullVersion":1,"schemaVersion":{schema}}}'
        )


def scanned(rows: Rows, prefix: str, start: str, limit: int | None) -> list[list[Any]]:
    keys = sorted((key for key in rows if key.startswith(prefix)), key=str.encode)
    if start.startswith("="):
        keys = [key for key in keys if key.encode() >= start[1:].encode()]
    if start.startswith(">"):
        keys = [key for key in keys if key.encode() > start[1:].encode()]
    return [[key, rows[key]] for key in keys[:limit]]


def patched(rows: Rows, patch: list[dict[str, Any]]) -> Rows:
    rows = dict(rows)
    for op in patch:
        if op["op"] == "put":
            rows[op["key"]] = op["value"]
        elif op["op"] == "del":
            rows.pop(op["key"], None)
        else:
            rows.clear()
    return rows


WRONG_ARGUMENTS, NOT_THERE, OTHER_KIND, OUT_OF_RANGE = 1, 2, 3, 4
LENGTHS = {"set": 2, "del": 1, "incr": 2, "append": 2, "tag": 1}


def mutated(name: str, args: Any, why: str, rows: Rows) -> Rows:
    """The map after a mutator ran on it for a reason."""
    if name not in LENGTHS:
        raise NoMutator
    if not isinstance(args, list) or len(args) != LENGTHS[name] or not isinstance(args[0], str):
        raise Declined(WRONG_ARGUMENTS)
    rows, key = dict(rows), args[0]
    if name == "set":
        rows[key] = args[1]
    elif name == "del":
        rows.pop(key, None)
    elif name == "incr":
        rows[key] = raised(rows, key, args[1])
    else:
        rows[key] = lengthened(rows, key, why if name == "tag" else args[1])
    return rows


def is_i64(value: Any) -> bool:
    return is_int(value) and -(2**63) <= value < 2**63


def raised(rows: Rows, key: str, by: Any) -> Any:
    if not is_i64(by):
        raise Declined(WRONG_ARGUMENTS)
    if key not in rows:
        raise Declined(NOT_THERE)
    if not is_i64(rows[key]):
        raise Declined(OTHER_KIND)
    if not is_i64(rows[key] + by):
        raise Declined(OUT_OF_RANGE)
    return rows[key] + by


def lengthened(rows: Rows, key: str, tail: Any) -> Any:
    if not isinstance(tail, str):
        raise Declined(WRONG_ARGUMENTS)
    if not isinstance(rows.get(key, ""), str):
        raise Declined(OTHER_KIND)
    return rows.get(key, "") + tail
