"""A side of the page: a client group, its clients by letters, its switch, and what the page shows of it."""

from __future__ import annotations

import json
import threading
from collections import Counter
from collections.abc import Callable, Mapping
from typing import Any

import todo
from giqaymu import Offline, PendingMutation, Refusal, Replicache, Reply, RequestOptions
from giqaymu.http_transport import Http

Json = Any

OPTIONS = RequestOptions(min_delay=0.05, max_delay=2.0, timeout=5.0)
PREFIX = "todo/"


class Side:
    """The group. Any thread calls it."""

    def __init__(self, name: str, server: str, letters: str, changed: Callable[[], None]) -> None:
        """`changed` is called whenever the page may show something else."""
        self.name, self.is_offline = name, False
        self._post = Http(OPTIONS)
        self._lock = threading.Lock()  # of `_counts`
        self._counts = Counter[str]()
        self._cookie: Json = None
        self.group = Replicache(
            push_url=f"{server}/push",
            pull_url=f"{server}/pull",
            poke_url=f"{server}/poke",
            mutators=todo.MUTATORS,
            schema_version="1",
            transport=self._transport,
            request_options=OPTIONS,
            on_online_change=lambda _: changed(),
            on_error=self._failed,
        )
        others = [self.group.client() for _ in letters[1:]]
        self.clients = dict(zip(letters, [self.group, *others]))
        self._letters = {client.client_id: letter for letter, client in self.clients.items()}
        self.group.on_change(changed)

    def _count(self, what: str, times: int = 1) -> None:
        with self._lock:
            self._counts[what] += times

    def _failed(self, what: str, error: Exception) -> None:
        self._count(f"{what}: {type(error).__name__}")

    def _transport(self, url: str, body: bytes, headers: Mapping[str, str]) -> Reply:
        """Sends a request, unless the switch says that the group is offline."""
        what = url.rpartition("/")[2]
        if self.is_offline:
            raise Offline("the switch is off")
        self._count("pushes" if what == "push" else "pulls")
        if what == "push":
            self._count("mutations sent", len(json.loads(body)["mutations"]))
        try:
            reply = self._post(url, body, headers)
        except Offline:
            self._count("lost")
            raise
        if what == "pull":
            self._cookie = _cookie_of(reply.body, self._cookie)
        return reply

    def switch(self, is_offline: bool) -> None:
        """Offline, or online again: then at once."""
        self.is_offline = is_offline
        self.group.pull(now=True)
        self.group.push(now=True)

    def mutate(self, letter: str, name: str, args: Json) -> str:
        """A client makes a mutation: why it was refused, or nothing."""
        try:
            self.clients[letter].mutate(name, args)
        except Refusal as refusal:
            self._count("refused")
            return str(refusal)
        self._count("mutations made")
        return ""

    def state(self) -> Json:
        """What the page shows."""
        with self._lock:
            counts = dict(self._counts)
        pending = self.group.experimental_pending_mutations()
        view, pulled = self.group.query(lambda tx: (dict(tx.scan()), dict(tx.pulled_scan())))
        return {
            "name": self.name,
            "offline": self.is_offline,
            "online": self.group.online,
            "clients": {letter: _items(client) for letter, client in self.clients.items()},
            "gone": [_text(pulled[key]) for key in pulled if key.startswith(PREFIX) and key not in view],
            "pulled": {"cookie": self._cookie, "keys": len(pulled)},
            "pending": [self._mutation(one, {**pulled, **view}) for one in pending],
            "view": len(view),
            "counts": counts,
        }

    def _mutation(self, one: PendingMutation, rows: dict[str, Json]) -> Json:
        """A pending mutation, and what it is about."""
        about = _field(one.args, "text") or _text(rows.get(f"{PREFIX}{_field(one.args, 'id')}"))
        return {"client": self._letters.get(one.client_id, "?"), "id": one.id, "name": one.name, "about": str(about)}

    def close(self) -> None:
        """Ends the group."""
        self.group.close()
        self._post.close()


def _items(client: Replicache) -> list[Json]:
    """The list as the client sees it; what the server has told otherwise, or not at all, is pending."""
    rows, pulled = client.query(lambda tx: (tx.scan(PREFIX), dict(tx.pulled_scan(PREFIX))))
    items = [
        {
            "id": row.key[len(PREFIX) :],
            "text": _text(row.value),
            "done": _field(row.value, "done") is True,
            "at": _field(row.value, "at"),
            "pending": pulled.get(row.key) != row.value,
        }
        for row in rows
    ]
    return sorted(items, key=lambda item: (item["at"] if isinstance(item["at"], int) else 0, item["id"]))


def _cookie_of(response: bytes, before: Json) -> Json:
    """The cookie of a response to a pull, or the one before where it has none."""
    try:
        return json.loads(response)["cookie"]
    except (ValueError, KeyError, TypeError):
        return before


def _field(value: Json, name: str) -> Json:
    """A field of what may be no object: anybody may have written the row."""
    return value.get(name) if isinstance(value, dict) else None


def _text(value: Json) -> str:
    return str(_field(value, "text") or "?")
