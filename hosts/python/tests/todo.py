"""The mutators of a to-do list, which the clients run and the server of the tests runs too; and rules like them."""

from __future__ import annotations

from typing import Any

from giqaymu import Refuse

Json = Any
HAS_IT, HAS_NOT = 10, 11


def add(tx: Any, args: Json) -> Json:
    """Adds an item, which is not there yet; answers it."""
    key = f"todo/{args['id']}"
    if tx.has(key):
        raise Refuse(HAS_IT)
    todo = {"done": False, "text": args["text"], "at": tx.get("todos", 0)}
    tx.set(key, todo)
    tx.set("todos", tx.get("todos", 0) + 1)
    return todo


def _there(tx: Any, args: Json) -> Json:
    todo = tx.get(f"todo/{args['id']}")
    if todo is None:
        raise Refuse(HAS_NOT)
    return todo


def toggle(tx: Any, args: Json) -> None:
    """Says of an item that it is done, or not done where it was."""
    todo = _there(tx, args)
    tx.set(f"todo/{args['id']}", {**todo, "done": not todo["done"]})


def rename(tx: Any, args: Json) -> None:
    """Gives an item another text."""
    tx.set(f"todo/{args['id']}", {**_there(tx, args), "text": args["text"]})


def remove(tx: Any, args: Json) -> None:
    """Takes an item away, if it is there."""
    if tx.delete(f"todo/{args['id']}"):
        tx.set("todos", tx.get("todos", 0) - 1)


def once(tx: Any, args: Json) -> int:
    """Counts how often it was done for this argument, and in all."""
    times = tx.get(f"n/{args}", 0) + 1
    tx.set(f"n/{args}", times)
    tx.set("counted", tx.get("counted", 0) + 1)
    return int(times)


def fail(tx: Any, args: Json) -> None:
    """Looks into an item without asking whether it is there: KeyError where it is not."""
    tx.set("looked", {f"todo/{args['id']}": tx.get(f"todo/{args['id']}")}[args["key"]]["text"])


MUTATORS = {"add": add, "toggle": toggle, "rename": rename, "remove": remove, "once": once, "fail": fail}

RULES: dict[str, Json] = {
    "add": [["need", ["not", ["has", ["cat", "todo/", ["arg", "id"]]]], HAS_IT],
            ["put", ["cat", "todo/", ["arg", "id"]], ["arg", "text"]]],
    "rename": [["need", ["has", ["cat", "todo/", ["arg", "id"]]], HAS_NOT],
               ["put", ["cat", "todo/", ["arg", "id"]], ["arg", "text"]]],
    "remove": [["need", ["has", ["cat", "todo/", ["arg", "id"]]], HAS_NOT],
               ["del", ["cat", "todo/", ["arg", "id"]]]],
}
"""Rules whose items are their texts alone."""


def rule_add(tx: Any, args: Json) -> None:
    """What the rule `add` does."""
    if tx.has(f"todo/{args['id']}"):
        raise Refuse(HAS_IT)
    tx.set(f"todo/{args['id']}", args["text"])


def rule_rename(tx: Any, args: Json) -> None:
    """What the rule `rename` does."""
    _there(tx, args)
    tx.set(f"todo/{args['id']}", args["text"])


def rule_remove(tx: Any, args: Json) -> None:
    """What the rule `remove` does."""
    _there(tx, args)
    tx.delete(f"todo/{args['id']}")


RULES_AT_SERVER = {"add": rule_add, "rename": rule_rename, "remove": rule_remove}
