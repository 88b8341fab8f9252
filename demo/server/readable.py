"""Which values and keys may be stored: what each client can read, and both databases can hold.

One row that a client can't read would stop the pulls of all clients for ever. So a mutation that writes such a row is
refused, whatever its arguments were.
"""

from __future__ import annotations

import json
from typing import Any

Json = Any

MOST_DEEP = 124
"""How deep a value may nest: it stands three levels down in a response, and 127 levels are read."""
LEAST, MOST = -(2**63), 2**64 - 1
"""Numbers are whole, from the least to the most."""
MOST_KEY = 1024
"""How many bytes a key may have in UTF-8. PostgreSQL's index takes 2,704."""
MOST_VALUE = 1 << 20
"""How many bytes a value's text may have."""
AROUND = 32
"""How many bytes of an operation are neither the key nor the value."""


class Unreadable(ValueError):
    """A value or a key is not one that every client can read, or that is stored here."""


def key_of(key: object) -> str:
    """The key, which may be stored: a text of at most `MOST_KEY` bytes without U+0000, which PostgreSQL has not."""
    if not isinstance(key, str):
        raise Unreadable("a key is a text")
    if "\0" in key:
        raise Unreadable("a key has no U+0000")
    if _bytes(key) > MOST_KEY:
        raise Unreadable(f"a key has at most {MOST_KEY} bytes")
    return key


def text_of(value: Json) -> str:
    """The JSON text of a value that may be stored."""
    _check(value)
    text = json.dumps(value, ensure_ascii=False, separators=(",", ":"))
    if _bytes(text) > MOST_VALUE:
        raise Unreadable(f"a value has at most {MOST_VALUE} bytes")
    return text


def size_of(key: str, text: str | None) -> int:
    """How many bytes a patch has for the row, at the most; None: the row is gone, and a patch still tells that."""
    return AROUND + _bytes(json.dumps(key, ensure_ascii=False)) + (0 if text is None else _bytes(text))


def _bytes(text: str) -> int:
    """How many bytes the text has in UTF-8, which a lone surrogate is not in."""
    try:
        return len(text.encode())
    except UnicodeEncodeError:
        raise Unreadable("a text has a lone surrogate") from None


def _check(value: Json) -> None:
    """Looks at each value inside, without a recursion that a deep one could break."""
    left = [(value, 0)]
    while left:
        one, depth = left.pop()
        if isinstance(one, (dict, list)):
            if depth == MOST_DEEP:
                raise Unreadable(f"a value nests at most {MOST_DEEP} deep")
            if isinstance(one, dict) and not all(isinstance(name, str) for name in one):
                raise Unreadable("a field's name is a text")
            inside = one.values() if isinstance(one, dict) else one
            left += [(part, depth + 1) for part in inside]
        elif isinstance(one, bool) or one is None or isinstance(one, str):
            continue
        elif not isinstance(one, int):
            raise Unreadable("a number is whole (1.0 is not)")
        elif not LEAST <= one <= MOST:
            raise Unreadable("a number has 64 bits")
