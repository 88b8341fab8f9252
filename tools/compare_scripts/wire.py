"""JSON, pull responses and request bodies, as docs/FORMATS.md has them."""

import json
import re
from typing import Any, NoReturn


class NotJson(Exception):
    """The bytes aren't one JSON text, or nest too deep."""


class Refused(Exception):
    """A call's refusal, by the text that is printed."""


class Fraction:
    """A number that isn't whole, or not within 64 bits."""


# Of a response's body, and of the arguments of a mutation.
BODY_DEPTH = 127
ARGS_DEPTH = 124


def read_json(data: bytes, depth: int) -> Any:
    """The value of these bytes; numbers that aren't whole are Fractions."""
    try:
        text = data.decode("utf-8")
        value = json.loads(text, parse_int=read_int, parse_float=read_float, parse_constant=refuse)
    except (UnicodeDecodeError, json.JSONDecodeError, RecursionError) as error:
        raise NotJson from error
    if text.startswith("\ufeff") or has_surrogate(text) or brackets(text) > depth:
        raise NotJson
    return value


def refuse(_constant: str) -> NoReturn:
    raise NotJson


def read_int(digits: str) -> int | Fraction:
    if digits == "-0":
        return Fraction()
    number = int(digits)
    if -(2**63) <= number < 2**64:
        return number
    return read_float(digits)


def read_float(digits: str) -> Fraction:
    if float(digits) in (float("inf"), float("-inf")):
        raise NotJson
    return Fraction()


STRING = re.compile(r'"(?:[^"\\]|\\.)*"')
BRACKET = re.compile(r"[][{}]")


def has_surrogate(text: str) -> bool:
    """Whether a string has half of a pair, of which only an escape tells: in fields that later ones hide, too."""
    escaped = (json.loads(string) for string in STRING.findall(text) if "\\u" in string)
    return any("\ud800" <= char <= "\udfff" for string in escaped for char in string)


def parts(value: Any) -> list[Any]:
    if isinstance(value, list):
        return value
    if isinstance(value, dict):
        return [*value.keys(), *value.values()]
    return []


def brackets(text: str) -> int:
    """How deep the text nests, fields that are hidden by later ones among it."""
    depth = deepest = 0
    for bracket in BRACKET.findall(STRING.sub("", text)):
        depth += 1 if bracket in "[{" else -1
        deepest = max(deepest, depth)
    return deepest


def is_whole(value: Any) -> bool:
    return not isinstance(value, Fraction) and all(is_whole(part) for part in parts(value))


def is_int(value: Any) -> bool:
    return isinstance(value, int) and not isinstance(value, bool)


def is_number(value: Any) -> bool:
    return is_int(value) or isinstance(value, Fraction)


ESCAPES = {'"': '\\"', "\\": "\\\\", "\b": "\\b", "\t": "\\t", "\n": "\\n", "\f": "\\f", "\r": "\\r"}
ESCAPED = str.maketrans({chr(code): f"\\u{code:04x}" for code in range(32)} | ESCAPES)


def quoted(text: str) -> str:
    return f'"{text.translate(ESCAPED)}"'


def compact(value: Any) -> str:
    """The value as a text without white space, its fields sorted by their names' bytes."""
    if isinstance(value, str):
        return quoted(value)
    if isinstance(value, list):
        return f"[{','.join(map(compact, value))}]"
    if isinstance(value, dict):
        fields = (f"{quoted(name)}:{compact(value[name])}" for name in sorted(value, key=str.encode))
        return f"{{{','.join(fields)}}}"
    return {None: "null", True: "true", False: "false"}[value] if not is_int(value) else str(value)


def read_response(data: bytes) -> tuple[str | None, Any]:
    """The error that a body brings, or None; and else its cookie, its changed ids and its patch."""
    try:
        body = read_json(data, BODY_DEPTH)
    except NotJson as error:
        raise Refused("NotJson") from error
    if not isinstance(body, dict):
        raise Refused("BadShape")
    if "error" in body:
        return error_of(body), None
    if not {"cookie", "lastMutationIDChanges", "patch"} <= body.keys():
        raise Refused("BadShape")
    cookie, changes, patch = body["cookie"], body["lastMutationIDChanges"], body["patch"]
    if not (is_cookie(cookie) and are_changes(changes) and is_patch(patch)):
        raise Refused("BadShape")
    values = [op["value"] for op in patch if op["op"] == "put"]
    if not is_whole([cookie, changes, values]):
        raise Refused("NotWhole")
    return None, (cookie, changes, patch)


def error_of(body: dict[str, Any]) -> str:
    if body["error"] == "ClientStateNotFound":
        return "StateNotFound"
    if body["error"] != "VersionNotSupported":
        raise Refused("BadShape")
    kind = body.get("versionType")
    known = isinstance(kind, str) and kind in ("push", "pull", "schema")
    return f"VersionNotSupported {kind if known else 'unknown'}"


def is_cookie(cookie: Any) -> bool:
    if isinstance(cookie, dict):
        order = cookie.get("order")
        return isinstance(order, str) or is_number(order)
    return cookie is None or isinstance(cookie, str) or is_number(cookie)


def are_changes(changes: Any) -> bool:
    return isinstance(changes, dict) and all(
        isinstance(id, Fraction) or is_int(id) and 0 <= id <= 2**52 for id in changes.values()
    )


def is_patch(patch: Any) -> bool:
    return isinstance(patch, list) and all(isinstance(op, dict) and is_operation(op) for op in patch)


def is_operation(op: dict[str, Any]) -> bool:
    has_key = isinstance(op.get("key"), str)
    shapes = {"put": has_key and "value" in op, "del": has_key, "clear": True}
    return isinstance(op.get("op"), str) and shapes.get(op["op"], False)


def order_of(cookie: Any) -> tuple[Any, ...]:
    """What cookies are compared by: null, then numbers, then texts by their bytes."""
    order = cookie["order"] if isinstance(cookie, dict) else cookie
    if order is None:
        return (0,)
    return (1, order) if is_int(order) else (2, order.encode())
