"""The mutators of `todo.py`, and the same ones as data in `rules.json`, mean the same."""

from __future__ import annotations

import importlib
import json
import random
import sys
import unittest
from typing import Any

import todo
from children import HERE
from giqaymu import Refuse

sys.path.append(str(HERE.parent / "examples" / "hosts"))
data: Any = importlib.import_module("rules")

Json = Any

RUNS = 3000
NAMES = ("add", "toggle", "rename", "remove", "count", "once")


class Rows:
    """A map, as a mutator reads and writes it."""

    def __init__(self, rows: dict[str, Json]) -> None:
        self.rows = dict(rows)

    def get(self, key: str, default: Json = None) -> Json:
        return self.rows.get(key, default)

    def has(self, key: str) -> bool:
        return key in self.rows

    def set(self, key: str, value: Json) -> None:
        self.rows[key] = value

    def delete(self, key: str) -> bool:
        return self.rows.pop(key, self) is not self


def by_function(name: str, args: Json, rows: dict[str, Json]) -> Json:
    """The rows after the function, or the code with which it refused."""
    after = Rows(rows)
    try:
        todo.MUTATORS[name](after, args)
    except Refuse as refused:
        return refused.code
    return after.rows


def by_rules(rules: Json, name: str, args: Json, rows: dict[str, Json]) -> Json:
    """The rows after the rule, or the code with which it refused."""
    try:
        return data.run(rules, name, args, rows)
    except data.Refused as refused:
        return refused.code


class Twins(unittest.TestCase):
    """A walk of random mutations, each one done by both."""

    def test_both_mean_the_same(self) -> None:
        dice = random.Random(7)
        rules = data.read((HERE / "rules.json").read_bytes())
        rows: dict[str, Json] = {}
        refused: dict[Json, int] = {}
        for n in range(RUNS):
            name = dice.choice(NAMES)
            right = {"id": str(dice.randrange(9)), "text": f"t{n}"}
            args = dice.choice([right] * 9 + [{"id": 3, "text": ""}, {}, [], 7, {"id": None}])
            after = by_function(name, args, rows)
            self.assertEqual(after, by_rules(rules, name, args, rows), (name, args))
            if isinstance(after, dict):
                rows = after
            else:
                refused[after] = refused.get(after, 0) + 1
        self.assertEqual(sorted(refused), [todo.WRONG, todo.TAKEN, todo.NOT_THERE])
        self.assertGreater(len(rows), 9)
        json.dumps(rows)


if __name__ == "__main__":
    unittest.main()
