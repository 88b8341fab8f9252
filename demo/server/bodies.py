"""What a request has to be (Replicache: Push Endpoint Reference, Pull Endpoint Reference, version 1).

A body comes from anywhere. So everything in it that is used is checked here, before a transaction begins: `BadRequest`
says what is wrong. Fields that are not known are passed over.
"""

from __future__ import annotations

import json
import re
from dataclasses import dataclass
from typing import Any

Json = Any

MOST_BYTES = 16 << 20
"""How many bytes a body may have. A push has all that its group has pending: 16 MiB are some 100,000 mutations."""
MOST_ID = 2**52
"""The highest ID of a mutation."""
MOST_NAME = 256
"""How many characters the name of a mutator, a profile or a schema may have."""
UUID = re.compile(r"[0-9a-f]{8}(-[0-9a-f]{4}){3}-[0-9a-f]{12}")
"""A UUID, in lower case and with hyphens (RFC 9562)."""


class BadRequest(Exception):
    """The request is one that a right client does not make. It changed nothing."""


class NotSupported(Exception):
    """The request is of a version that is not supported here: `push`, `pull` or `schema`."""

    def __init__(self, version: str) -> None:
        super().__init__(version)
        self.version = version


@dataclass(frozen=True)
class Mutation:
    """A mutation. Its ID counts those of its client from 1 on; its arguments may be any JSON."""

    client: str
    id: int
    name: str
    args: Json


@dataclass(frozen=True)
class Push:
    """A push: mutations of clients of the group, those of each client with IDs that follow each other."""

    group: str
    mutations: list[Mutation]


@dataclass(frozen=True)
class Pull:
    """A pull. The cookie is the version that the group has the rows of; None: it has nothing."""

    group: str
    cookie: int | None


def read_push(body: bytes, schemas: frozenset[str]) -> Push:
    """The push that the body says."""
    fields = _request(body, "push", schemas)
    mutations = _typed(fields, "mutations", list)
    push = Push(uuid_in(fields, "clientGroupID"), [_mutation(at, one) for at, one in enumerate(mutations)])
    _check_order(push.mutations)
    return push


def read_pull(body: bytes, schemas: frozenset[str]) -> Pull:
    """The pull that the body says."""
    fields = _request(body, "pull", schemas)
    group = uuid_in(fields, "clientGroupID")
    if "cookie" not in fields:
        raise BadRequest("cookie is missing: null, or the cookie of the last pull")
    cookie = fields["cookie"]
    if cookie is not None and not _is_whole(cookie, 0, 2**63 - 1):
        raise BadRequest("cookie is none that comes from here")
    return Pull(group, cookie)


def read_object(body: bytes) -> dict[str, Json]:
    """The JSON object that the body is."""
    try:
        fields = json.loads(body.decode(), parse_constant=_no_number)
    except (ValueError, RecursionError) as wrong:
        raise BadRequest(f"the body is no JSON in UTF-8, or nests too deep: {wrong}") from None
    if not isinstance(fields, dict):
        raise BadRequest("the body is no JSON object")
    return fields


def _no_number(text: str) -> None:
    raise ValueError(f"{text} is no JSON")


def _request(body: bytes, kind: str, schemas: frozenset[str]) -> dict[str, Json]:
    """The fields of a request of this kind, whose versions are supported."""
    fields = read_object(body)
    _text(fields, "profileID")
    if not _is_whole(fields.get(f"{kind}Version"), 0, 2**53):
        raise BadRequest(f"{kind}Version is no whole number")
    if fields[f"{kind}Version"] != 1:
        raise NotSupported(kind)
    if _text(fields, "schemaVersion") not in schemas:
        raise NotSupported("schema")
    return fields


def _mutation(at: int, fields: Json) -> Mutation:
    """The mutation at a place of the list."""
    place = f"mutations[{at}]"
    if not isinstance(fields, dict):
        raise BadRequest(f"{place} is no object")
    number: Json = fields.get("id")
    if not _is_whole(number, 1, MOST_ID):
        raise BadRequest(f"{place}.id is no whole number from 1 to 2^52")
    timestamp = fields.get("timestamp")
    if type(timestamp) not in (int, float):
        raise BadRequest(f"{place}.timestamp is no number")
    if "args" not in fields:
        raise BadRequest(f"{place}.args is missing")
    client = uuid_in(fields, "clientID", place + ".")
    return Mutation(client, number, _text(fields, "name", place + "."), fields["args"])


def _check_order(mutations: list[Mutation]) -> None:
    """The IDs of each client follow each other, so that whether a push fits is known by its first ones."""
    last: dict[str, int] = {}
    for at, one in enumerate(mutations):
        before = last.get(one.client)
        if before is not None and one.id != before + 1:
            raise BadRequest(f"mutations[{at}].id is {one.id}, and the one before it of its client is {before}")
        last[one.client] = one.id


def _is_whole(value: Json, least: int, most: int) -> bool:
    return type(value) is int and least <= value <= most


def _typed(fields: dict[str, Json], name: str, kind: type[Any]) -> Any:
    value = fields.get(name)
    if not isinstance(value, kind):
        raise BadRequest(f"{name} is missing, or no {kind.__name__}")
    return value


def _text(fields: dict[str, Json], name: str, place: str = "") -> str:
    value = fields.get(name)
    if not isinstance(value, str) or len(value) > MOST_NAME:
        raise BadRequest(f"{place}{name} is no text of at most {MOST_NAME} characters")
    return value


def uuid_in(fields: dict[str, Json], name: str, place: str = "") -> str:
    """The UUID that a field is; `place` is what the field's name begins with in a fault."""
    value = fields.get(name)
    if not isinstance(value, str) or not UUID.fullmatch(value):
        raise BadRequest(f"{place}{name} is no UUID in lower case")
    return value
