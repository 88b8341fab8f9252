"""A server for the tests, in their process: push, pull and pokes over HTTP, rows in memory, and faults on purpose.

One space of rows, each with the version that wrote it last; the cookie is the space's version. `lock` is held over each
request's work, so that a response is as of one moment.
"""

from __future__ import annotations

import json
import random
import socket
import threading
from collections import Counter
from collections.abc import Callable, Mapping
from http.server import BaseHTTPRequestHandler, ThreadingHTTPServer
from typing import Any

import todo
from giqaymu import Refuse

Json = Any


class Tx:
    """What one mutation reads and writes."""

    def __init__(self, rows: Mapping[str, Json]) -> None:
        self._rows = rows
        self.writes: dict[str, str | None] = {}

    def _text(self, key: str) -> str | None:
        text = self.writes[key] if key in self.writes else self._rows.get(key)
        return text

    def get(self, key: str, default: Json = None) -> Json:
        text = self._text(key)
        return default if text is None else json.loads(text)

    def has(self, key: str) -> bool:
        return self._text(key) is not None

    def set(self, key: str, value: Json) -> None:
        self.writes[key] = json.dumps(value)

    def delete(self, key: str) -> bool:
        was = self.has(key)
        self.writes[key] = None
        return was


class Space:
    """The rows, the groups and what their clients have done."""

    def __init__(self, mutators: Mapping[str, Callable[[Any, Json], Json]]) -> None:
        self.lock = threading.Condition()
        self.mutators = mutators
        self.version = 0
        self.rows: dict[str, str] = {}
        self.versions: dict[str, int] = {}
        self.groups: set[str] = set()
        self.forgotten: set[str] = set()
        self.clients: dict[str, tuple[str, int, int]] = {}  # group, last id, version
        self.counts: Counter[str] = Counter()
        self.most = 10**9  # how many mutations a push may do

    def push(self, body: Json) -> Json:
        """Does the mutations, each once, in the order of their ids."""
        with self.lock:
            group = body["clientGroupID"]
            if group in self.forgotten:
                return {"error": "ClientStateNotFound"}
            self.groups.add(group)
            done = 0
            for one in body["mutations"]:
                client, number = one["clientID"], one["id"]
                last = self.clients.get(client, (group, 0, 0))[1]
                if number <= last:
                    self.counts["seen"] += 1
                    continue
                if number != last + 1:
                    self.counts["gaps"] += 1
                    raise ValueError(f"client {client} has done {last}, and {number} is next")
                if done == self.most:
                    break
                self.do(one["name"], one["args"])
                self.clients[client] = group, number, self.version
                done += 1
            self.lock.notify_all()
            return {}

    def do(self, name: str, args: Json) -> None:
        """A mutation; one that refuses changes nothing. With the lock held, or from a test."""
        self.version += 1
        tx = Tx(self.rows)
        try:
            self.mutators[name](tx, args)
        except (Refuse, KeyError, TypeError):
            self.counts["refused"] += 1
            return
        self.counts["done"] += 1
        for key, text in tx.writes.items():
            self.versions[key] = self.version
            if text is None:
                self.rows.pop(key, None)
            else:
                self.rows[key] = text

    def pull(self, body: Json) -> Json:
        """What was changed since the cookie."""
        with self.lock:
            group, cookie = body["clientGroupID"], body["cookie"]
            if group in self.forgotten or cookie is not None and group not in self.groups:
                return {"error": "ClientStateNotFound"}
            self.groups.add(group)
            since = -1 if cookie is None else cookie
            patch: list[Json] = [{"op": "clear"}] if cookie is None else []
            for key, version in self.versions.items():
                if version > since and key in self.rows:
                    patch.append({"op": "put", "key": key, "value": json.loads(self.rows[key])})
                elif version > since and cookie is not None:
                    patch.append({"op": "del", "key": key})
            changes = {client: last for client, (of, last, version) in self.clients.items()
                       if of == group and version > since}
            self.counts["pulls"] += 1
            return {"cookie": self.version, "lastMutationIDChanges": changes, "patch": patch}

    def values(self) -> dict[str, Json]:
        """The rows."""
        with self.lock:
            return {key: json.loads(text) for key, text in self.rows.items()}

    def forget(self, group: str) -> None:
        """The server knows the group no more."""
        with self.lock:
            self.groups.discard(group)
            self.forgotten.add(group)
            self.clients = {client: row for client, row in self.clients.items() if row[0] != group}


class Server(ThreadingHTTPServer):
    """The space over HTTP, on 127.0.0.1."""

    daemon_threads = True
    request_queue_size = 64

    def __init__(self, mutators: Mapping[str, Callable[[Any, Json], Json]] | None = None) -> None:
        super().__init__(("127.0.0.1", 0), Handler)
        self.space = Space(mutators or todo.MUTATORS)
        self.dice = random.Random(1)
        self.lose = self.cut = 0.0
        self.is_down = False
        self.auth: str | None = None
        self.pushed: list[Json] = []
        self.url = f"http://127.0.0.1:{self.server_address[1]}"
        self.urls = {"push_url": self.url + "/push", "pull_url": self.url + "/pull"}
        threading.Thread(target=self.serve_forever, kwargs={"poll_interval": 0.02}, daemon=True).start()

    def handle_error(self, request: Any, client_address: Any) -> None:
        """Connections that break on purpose are no news."""

    def end(self) -> None:
        """No more answers."""
        self.is_down = True
        with self.space.lock:
            self.space.lock.notify_all()
        self.shutdown()
        self.server_close()


class Handler(BaseHTTPRequestHandler):
    """A request."""

    server: Server
    protocol_version = "HTTP/1.1"
    disable_nagle_algorithm = True

    def log_message(self, format: str, *args: object) -> None:
        """Nothing."""

    def do_GET(self) -> None:
        """The stream of pokes: a line for each version."""
        space, told = self.server.space, self.server.space.version
        self.send_response(200)
        self.send_header("content-type", "text/event-stream")
        self.end_headers()
        self.close_connection = True
        self.wfile.write(b": open\n\n")
        while not self.server.is_down:
            with space.lock:
                space.lock.wait_for(lambda: space.version != told or self.server.is_down, 5)
                line = b": quiet\n\n" if space.version == told else b"data: new\n\n"
                told = space.version
            self.wfile.write(line)

    def do_POST(self) -> None:
        """A push or a pull."""
        server = self.server
        body = json.loads(self.rfile.read(int(self.headers["content-length"])))
        if server.is_down or server.dice.random() < server.lose:
            self.connection.shutdown(socket.SHUT_RDWR)
            self.close_connection = True
            return
        if server.auth is not None and self.headers["authorization"] != server.auth:
            self.answer(401, {})
            return
        if self.path == "/push":
            server.pushed.append(body)
        try:
            answer = server.space.push(body) if self.path == "/push" else server.space.pull(body)
        except ValueError as wrong:
            self.answer(400, {"wrong": str(wrong)})
            return
        if server.dice.random() < server.lose:
            self.connection.shutdown(socket.SHUT_RDWR)
            self.close_connection = True
            return
        self.answer(200, answer)

    def answer(self, status: int, body: Json) -> None:
        """A response, which may break in the middle."""
        text = json.dumps(body).encode()
        self.send_response(status)
        self.send_header("content-type", "application/json")
        self.send_header("content-length", str(len(text)))
        self.end_headers()
        if self.server.dice.random() < self.server.cut:
            text = text[: len(text) // 2]
            self.close_connection = True
        self.wfile.write(text)
