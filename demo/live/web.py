"""The page's own little server, on 127.0.0.1.

    GET  /         the page
    GET  /events   server-sent events: all that the page shows, whenever it differs
    POST /do       {"client": "A", "name": "add", "args": {..}}: a client makes a mutation
    POST /offline  {"side": 0, "offline": true}
    POST /lose     {"lose": 0.15}: which part of requests and of responses the server loses

Another page that the same browser shows could send requests here. So a request has to name this address as its host,
and one that comes from a page has to come from this one.
"""

from __future__ import annotations

import json
import sys
import threading
from http.server import BaseHTTPRequestHandler, ThreadingHTTPServer
from pathlib import Path
from typing import Any

from children import ServerChild
from server.pokes import Pokes

from .sides import Side

Json = Any

PAGE = Path(__file__).resolve().parent / "page.html"
NAMES = ("add", "toggle", "rename", "remove")
MOST_BYTES = 4096
MOST_TEXT = 200
TICK = 1.0
"""How many seconds pass until the page is told what the server has counted, where nothing else happens."""
PACE = 0.04
"""How many seconds are between two events at the least."""


class Wrong(Exception):
    """The request is none of the page's."""


class Page(ThreadingHTTPServer):
    """The page, over a server and the sides."""

    daemon_threads = True

    def __init__(self, server: ServerChild, port: int) -> None:
        super().__init__(("127.0.0.1", port), Handler)
        self.store, self.lose, self.pokes = server, 0.0, Pokes()
        self.port = int(self.server_address[1])
        self.address = f"http://127.0.0.1:{self.port}"
        changed = self.pokes.poke
        sides = (("Group 1", "AB"), ("Group 2", "C"))
        self.sides = [Side(name, server.address, letters, changed) for name, letters in sides]

    def state(self) -> Json:
        """All that the page shows."""
        report = self.store.report()
        rows = [[key, value] for key, value in report["rows"] if key.startswith("todo/") and isinstance(value, dict)]
        server = {"version": report["version"], "counts": report["counts"], "rows": rows, "lose": self.lose}
        return {"sides": [side.state() for side in self.sides], "server": server}

    def do(self, words: dict[str, Json]) -> Json:
        """A client makes a mutation."""
        client, name, args = words.get("client"), words.get("name"), words.get("args")
        side = next((side for side in self.sides if isinstance(client, str) and client in side.clients), None)
        if side is None or name not in NAMES or not isinstance(args, dict):
            raise Wrong("there is no such client, or no such mutation")
        if any(not isinstance(text, str) or len(text) > MOST_TEXT for text in args.values()):
            raise Wrong(f"an argument is no text of at most {MOST_TEXT} characters")
        return {"refused": side.mutate(str(client), name, args)}

    def switch(self, words: dict[str, Json]) -> Json:
        """A side goes offline, or online."""
        at, is_offline = words.get("side"), words.get("offline")
        if type(at) is not int or not 0 <= at < len(self.sides) or not isinstance(is_offline, bool):
            raise Wrong("there is no such side, or it is neither to be offline nor online")
        self.sides[at].switch(is_offline)
        return {}

    def set_losses(self, words: dict[str, Json]) -> Json:
        """The server loses this part from now on; half as many responses break in the middle."""
        part: Json = words.get("lose")
        if type(part) not in (int, float) or not 0 <= part <= 0.9:
            raise Wrong("lose is no number from 0 to 0.9")
        self.store.trial(lose=part, cut=part / 2)
        self.lose = part
        return {}

    def handle_error(self, request: Any, client_address: Any) -> None:
        """A browser that goes away is no error."""
        if not isinstance(sys.exc_info()[1], OSError):
            super().handle_error(request, client_address)

    def start(self) -> None:
        """Serves, on a thread."""
        threading.Thread(target=self.serve_forever, daemon=True).start()

    def close(self) -> None:
        """Ends the page and its clients."""
        self.pokes.end()
        self.shutdown()
        self.server_close()
        for side in self.sides:
            side.close()


class Handler(BaseHTTPRequestHandler):
    """A request of the page."""

    server: Page
    protocol_version = "HTTP/1.1"
    timeout = 30.0

    def log_message(self, format: str, *args: object) -> None:
        """Nothing is logged."""

    def _is_ours(self) -> bool:
        hosts = [f"{name}:{self.server.port}" for name in ("127.0.0.1", "localhost")]
        origin = self.headers.get("origin")
        return self.headers.get("host") in hosts and (origin is None or origin.removeprefix("http://") in hosts)

    def do_GET(self) -> None:
        """The page, or what it shows."""
        if not self._is_ours():
            self._send(403, {"error": "the request is for another host, or from another page"})
        elif self.path == "/":
            self._answer(200, "text/html; charset=utf-8", PAGE.read_bytes())
        elif self.path == "/events":
            self._stream()
        else:
            self._send(404, {"error": "there is no such page"})

    def do_POST(self) -> None:
        """What is done on the page."""
        page = self.server
        paths = {"/do": page.do, "/offline": page.switch, "/lose": page.set_losses}
        do = paths.get(self.path)
        try:
            if not self._is_ours() or do is None:
                raise Wrong("the request is for another host or path, or from another page")
            told = do(self._words())
        except Wrong as wrong:
            self.close_connection = True  # the body may not have been read
            self._send(400, {"error": str(wrong)})
            return
        page.pokes.poke()
        self._send(200, told)

    def _words(self) -> dict[str, Json]:
        length = self.headers.get("content-length", "")
        if not length.isascii() or not length.isdigit() or int(length[:9]) > MOST_BYTES or len(length) > 9:
            raise Wrong(f"a body has at most {MOST_BYTES} bytes")
        try:
            words = json.loads(self.rfile.read(int(length)))
        except (ValueError, RecursionError):
            raise Wrong("the body is no JSON") from None
        if not isinstance(words, dict):
            raise Wrong("the body is no JSON object")
        return words

    def _stream(self) -> None:
        """What the page shows, whenever it differs, until it is closed."""
        self.send_response(200)
        self.send_header("content-type", "text/event-stream")
        self.send_header("cache-control", "no-store")
        self.end_headers()
        self.close_connection = True
        seen, told = -1, b""
        paused = threading.Event()
        while True:
            try:
                seen = self.server.pokes.wait(seen, TICK)
            except EOFError:
                return
            text = json.dumps(self.server.state()).encode()
            self.wfile.write(b": still here\n\n" if text == told else b"data: " + text + b"\n\n")
            told = text
            paused.wait(PACE)

    def _send(self, status: int, body: Json) -> None:
        self._answer(status, "application/json", json.dumps(body).encode())

    def _answer(self, status: int, kind: str, text: bytes) -> None:
        self.send_response(status)
        self.send_header("content-type", kind)
        self.send_header("content-length", str(len(text)))
        self.send_header("cache-control", "no-store")
        self.end_headers()
        self.wfile.write(text)
