"""Rules made at random, as texts, many of them faulty; and arguments for them. What is made follows from the number
that `r` was seeded with."""

import json
import random
from typing import Any

r = random.Random()

# ---- what may stand in rules and rows

KEYS = ["a", "b", "c", "1", "-5", "k/1", "~", "", "é"]
NUMBERS = [0, 1, -1, 5, 10, 2**63 - 1, -(2**63), 2**63, 2**64 - 1]
TEXTS = ["", "a", "b", "1", "x", 'é"\\', "\u0001", "\U0001f600"]
NAMES = ["m", "m2", "a/b", "~0", "z", "é", "a\nb", '"\\', "\x00\x1f\x7f", "\b\t\f\r", "\U0001f600"]
FLOATS = [1.5, -0.0, 1e300, 2.0**64]
CODES = [7, 0, 2**32 - 1]
ONE, TWO = ["get", "has", "not"], ["same", "add", "sub", "below", "and", "or"]
NO_EXPRESSIONS = [[], [1], ["bogus", 1], ["put", "a", 1], ["lit"], ["get", 1, 2], *FLOATS]
NO_STEPS: list[Any] = [1, None, [], [2], ["get", "a"], ["puts"], {}, ["put", "a"], ["if", True, [], 1]]

# What stands in the place of a value or in a text so is no JSON, or barely is.
ODD = [
    *("1", "[]", "1.5", "-0", "1e400", "1" + "0" * 400, '[["puts"]]', '{"x":1e400,"x":1}', "01", "nul", "NaN", ""),
    *('"\\ud800"', '"\\udc00\\ud800"', '{"\\udfff":1}', '"\\ud83d\\ude00"', '"\t"', '"\\x"', "[1,]", '{"a":1,}'),
    *("[" * 126 + "]" * 126, "[" * 128 + "]" * 128),
]
CHANGES = [
    *(("1", "1e999"), ("1", "-0"), ('"a"', '"\\ud800"'), ("1", "01"), ("null", "NaN"), (":", ""), ("[", "[ ")),
    *(("5", "1" + "0" * 400), ("10", "1" + "0" * 30), (",", "\t,\r"), ("a", "\x01")),
]
NO_TEXTS = [b"\xff", b"\xc0\xaf", b"\xed\xa0\x80", b"\xf4\x90\x80\x80", b"\xe2\x82"]


def chance(part: float) -> bool:
    return r.random() < part


def value(depth: int = 2, odd: bool = False) -> Any:
    kind = r.randrange(8 if depth else 5)
    if odd and chance(0.05):
        return r.choice(FLOATS)
    if kind < 5:
        return r.choice([None, True, False, r.choice(NUMBERS), r.choice(TEXTS), r.choice([0, 2, 3])])
    if kind < 7:
        return [value(depth - 1, odd) for _ in range(r.randrange(3))]
    return {r.choice(["a", "b", "f", "é"]): value(depth - 1, odd) for _ in range(r.randrange(3))}


def nested(count: int, inner: Any) -> Any:
    for _ in range(count):
        inner = [inner] if chance(0.5) else {"a": inner}
    return inner


# ---- rules of any kind, some of them faulty where they are odd


def leaf(odd: bool) -> Any:
    return r.choice(
        [
            *(r.choice(KEYS), r.choice(NUMBERS), chance(0.5), None),
            *(["arg", r.choice([0, 1, "a", "b", 5])], ["lit", value(2, odd)]),
            *(["get", r.choice(KEYS)], ["has", r.choice(KEYS)]),
        ]
    )


def argument(odd: bool) -> Any:
    wrong = [None, -1, [1], 2**64, 1.5] if odd and chance(0.1) else []
    return ["arg", r.choice([0, 1, "a", "f", 2**64 - 1, *wrong])]


def parts_of(word: str, depth: int, odd: bool) -> list[Any]:
    """Expressions behind a word; where they are odd, there may be one too many or too few."""
    count = r.randrange(4) if word == "cat" else 1 if word in ONE else 2
    if odd and chance(0.02):
        count += r.choice([-1, 1])
    if word in ("add", "sub", "below") and chance(0.6):
        return [r.choice([r.choice(NUMBERS[:5]), ["get", r.choice(KEYS)]]) for _ in range(2)]
    return [expression(depth, odd) for _ in range(count)]


def expression(depth: int, odd: bool) -> Any:
    if odd and chance(0.01):
        return r.choice(NO_EXPRESSIONS)
    if depth == 0 or chance(0.2):
        return leaf(odd)
    word = r.choice([*ONE, *TWO, "cat", "field", "object", "arg", "lit"])
    if word == "object":
        return {r.choice(["a", "b", "f", "x/y", "~"]): expression(depth - 1, odd) for _ in range(r.randrange(3))}
    if word == "field":
        return [word, expression(depth - 1, odd), 3 if odd and chance(0.03) else r.choice(["a", "f"])]
    if word == "arg":
        return argument(odd)
    if word == "lit":
        return [word, value(2, odd)]
    return [word, *parts_of(word, depth - 1, odd)]


def choice(depth: int, odd: bool) -> Any:
    if not depth:
        return ["del", "a"]
    test = r.choice([True, ["has", r.choice(KEYS)], expression(2, odd)])
    return ["if", test, steps(depth - 1, odd), steps(depth - 1, odd)]


def need(odd: bool) -> Any:
    wrong = [-1, 2**32, "7", 1.5] if odd and chance(0.1) else []
    test = r.choice([True, ["has", "a"], ["not", ["has", "b"]], expression(2, odd)])
    return ["need", test, r.choice([*CODES, *wrong])]


def step(depth: int, odd: bool) -> Any:
    if odd and chance(0.02):
        return r.choice(NO_STEPS)
    word = r.choice(["put", "put", "put", "del", "merge", "need", "if"])
    if word == "if":
        return choice(depth, odd)
    if word == "need":
        return need(odd)
    key = r.choice([*KEYS, expression(1, odd)])
    if word == "del":
        return [word, key]
    if word == "merge" and chance(0.7):
        return [word, key, {r.choice(["f", "a"]): expression(2, odd)}]
    return [word, key, expression(3, odd)]


def steps(depth: int, odd: bool) -> list[Any]:
    return [step(depth, odd) for _ in range(r.randrange(1, 4))]


# ---- rules in which most values are of the type that is wanted


def number(d: int) -> Any:
    if not d or chance(0.3):
        return r.choice([0, 1, -1, 5, 10, 2**63 - 1])
    if chance(0.5):
        return [r.choice(["add", "sub"]), number(d - 1), number(d - 1)]
    return ["or", None, number(d - 1)]


def text(d: int) -> Any:
    if not d or chance(0.5):
        return r.choice(KEYS)
    return ["cat", *(r.choice([text, number])(d - 1) for _ in range(r.randrange(4)))]


def truth(d: int) -> Any:
    if not d:
        return r.choice([True, False])
    word = r.choice(["has", "not", "same", "below", "and"])
    parts = {"has": [text], "not": [truth], "same": [anything] * 2, "below": [number] * 2, "and": [truth] * 2}[word]
    return [word, *(part(d - 1) for part in parts)]


def anything(d: int) -> Any:
    if not d:
        return r.choice([number(0), text(0), truth(0), ["lit", value()], None])
    kind = r.choice(["number", "text", "truth", "get", "field", "or", "object"])
    if kind == "get":
        return ["get", text(d - 1)]
    if kind == "field":
        return ["field", anything(d - 1), r.choice(["a", "f"])]
    if kind == "or":
        return ["or", ["get", text(0)], anything(d - 1)]
    if kind == "object":
        return {"a": anything(d - 1), "f": anything(d - 1)}
    return {"number": number, "text": text, "truth": truth}[kind](d)


def typed_step(depth: int) -> Any:
    word = r.choice(["put", "put", "put", "del", "merge", "need", "if"])
    if word == "if":
        return ["if", truth(2), typed_steps(depth - 1), typed_steps(depth - 1)] if depth else ["del", text(1)]
    if word == "need":
        return ["need", ["or", None, truth(2)] if chance(0.3) else True, r.choice(CODES)]
    if word == "merge":
        return ["if", ["same", ["field", ["get", "a"], "a"], None], [], [["merge", "a", {"f": anything(2)}]]]
    return ["del", text(2)] if word == "del" else ["put", text(2), anything(3)]


def typed_steps(depth: int) -> list[Any]:
    return [typed_step(depth) for _ in range(r.randrange(1, 4))]


# ---- texts


def string(said: str) -> str:
    """A JSON string, in which any character may have its number."""
    plain = [json.dumps(c, ensure_ascii=False)[1:-1] for c in said]
    told = [f"\\u{ord(c):04x}" if c < "\uffff" and chance(0.1) else it for c, it in zip(said, plain)]
    return "".join(told).join('""')


def written(it: Any, odd: bool) -> str:
    """The JSON text of a value. Where it is odd a member may stand there twice, of which the last one counts."""
    if type(it) is list:
        return ",".join([written(each, odd) for each in it]).join("[]")
    if type(it) is dict:
        twice = [(name, odd and chance(0.05)) for name in it]
        told = [f"{string(name)}:{r.choice(ODD)}," * is_twice + string(name) for name, is_twice in twice]
        return ",".join(f"{name}:{written(each, odd)}" for name, each in zip(told, it.values())).join("{}")
    return string(it) if type(it) is str else json.dumps(it)


def any_rules(odd: bool) -> Any:
    made: dict[str, Any] = {"m": typed_steps(2) if chance(0.6) else steps(2, odd)}
    if chance(0.1):
        deep = ["get", "deep"]
        made["m"] = [["put", "a", {"f": {"g": deep}}], ["put", "b", ["same", ["get", "a"], {"f": deep}]]]
    if chance(0.1):
        made["m2"] = steps(1, odd)
    if odd and chance(0.3):
        made[r.choice(NAMES)] = r.choice([1, {}, steps(1, True), [["put", "k", {r.choice(NAMES): 1.5}]]])
    return r.choice([[], 1, None, "m"]) if odd and chance(0.03) else made


def bytes_of_rules() -> bytes:
    odd = chance(0.6)
    said = written(any_rules(odd), odd)
    if odd and chance(0.1):
        said = said.replace(*r.choice(CHANGES), 1)
    if odd and chance(0.05):
        cut = [said[:-1], said + "]", "\ufeff" + said, "", " " + said, said + "\0", '{"m":' + r.choice(ODD) + "}"]
        said = r.choice(cut)
    return said.encode().replace(b"a", r.choice(NO_TEXTS), 1) if odd and chance(0.03) else said.encode()


# ---- calls of them


def some_name() -> str:
    return r.choice(["m"] * 10 + ["m2"] * 2 + ["set", "del", "incr", "append", "tag", "none"])


def some_arguments() -> Any:
    key = r.choice(KEYS)
    objects = [{"a": value(), "b": value()}, value()]
    return r.choice([*objects, [value(), value()], [key, value()], [key], [key, r.choice(TEXTS)]])
