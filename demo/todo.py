"""The mutators of a to-do list. Clients run them over a draft, and the server over its database: the same functions.

`rules.json` has the same ones as data. `set` and `append` are what scripts have under these names
(`docs/SCRIPT.md`), for keys of notes and logs alone.

A mutator's arguments may be anything. One that is handed something else than it takes refuses with `WRONG`.
"""

from __future__ import annotations

from typing import Any, Protocol

from giqaymu import Refuse

Json = Any

WRONG, TAKEN, NOT_THERE = 1, 10, 11
"""Codes of refusals: the arguments or the row aren't what they have to be; there is such a row; there is none."""


class Transaction(Protocol):
    """What a mutator reads and writes, on a client and on the server."""

    def get(self, key: str, default: Json = None) -> Json:
        """The value at the key, or the default."""

    def has(self, key: str) -> bool:
        """Whether the key is there."""

    def set(self, key: str, value: Json) -> None:
        """Puts a value."""

    def delete(self, key: str) -> bool:
        """Takes the key out."""


def add(tx: Transaction, args: Json) -> Json:
    """A new thing to do: `id` and `text`. It keeps how many there were."""
    key = _key(args)
    if tx.has(key):
        raise Refuse(TAKEN)
    count = _whole(tx.get("todos", 0))
    todo = {"at": count, "done": False, "text": _text(args, "text")}
    tx.set(key, todo)
    tx.set("todos", count + 1)
    return todo


def toggle(tx: Transaction, args: Json) -> None:
    """What was done isn't, and what was not is."""
    key = _key(args)
    todo = _there(tx, key)
    done = todo.get("done")
    if not isinstance(done, bool):
        raise Refuse(WRONG)
    tx.set(key, {**todo, "done": not done})


def rename(tx: Transaction, args: Json) -> None:
    """Another text."""
    key = _key(args)
    tx.set(key, {**_there(tx, key), "text": _text(args, "text")})


def remove(tx: Transaction, args: Json) -> None:
    """The thing is gone; nothing is done where there is none."""
    if tx.delete(_key(args)):
        tx.set("todos", _whole(tx.get("todos")) - 1)


def count(tx: Transaction, args: Json) -> None:
    """One more: done twice, or not at all, it would be seen."""
    tx.set("counted", _whole(tx.get("counted", 0)) + 1)


def once(tx: Transaction, args: Json) -> int:
    """Counts how often it was done with this `id`, and how often with any."""
    key = _key(args, "once")
    times = _whole(tx.get(key, 0)) + 1
    tx.set(key, times)
    tx.set("all", _whole(tx.get("all", 0)) + 1)
    return times


def put_note(tx: Transaction, args: Json) -> None:
    """`set`: a note, by its key and its text."""
    key, text = _pair(args, "note/")
    tx.set(key, text)


def append(tx: Transaction, args: Json) -> None:
    """A text at the end of a log, by its key."""
    key, text = _pair(args, "log/")
    tx.set(key, _is_text(tx.get(key, "")) + text)


MUTATORS = {
    "add": add,
    "toggle": toggle,
    "rename": rename,
    "remove": remove,
    "count": count,
    "once": once,
    "set": put_note,
    "append": append,
}


def _key(args: Json, kind: str = "todo") -> str:
    """The key of the thing that the field `id` names: a text or a whole number."""
    word = args.get("id") if isinstance(args, dict) else None
    if not isinstance(word, (str, int)) or isinstance(word, bool):
        raise Refuse(WRONG)
    return f"{kind}/{word}"


def _there(tx: Transaction, key: str) -> dict[str, Json]:
    """The thing that is there."""
    if not tx.has(key):
        raise Refuse(NOT_THERE)
    todo = tx.get(key)
    if not isinstance(todo, dict):
        raise Refuse(WRONG)
    return todo


def _text(args: dict[str, Json], name: str) -> str:
    return _is_text(args.get(name))


def _is_text(value: Json) -> str:
    if not isinstance(value, str):
        raise Refuse(WRONG)
    return value


def _whole(value: Json) -> int:
    if not isinstance(value, int) or isinstance(value, bool):
        raise Refuse(WRONG)
    return value


def _pair(args: Json, prefix: str) -> tuple[str, str]:
    """A key with this prefix, and a text."""
    if not isinstance(args, list) or len(args) != 2 or not _is_text(args[0]).startswith(prefix):
        raise Refuse(WRONG)
    return args[0], _is_text(args[1])
