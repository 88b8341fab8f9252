"""The endpoints over HTTP, on 127.0.0.1.

    POST /push, /pull    Replicache's, version 1
    GET  /poke           server-sent events: the version, whenever there is a new one
    GET  /rows           rows, last IDs, what was counted     (a server on trial alone)
    POST /trial          what is lost from now on: `losses`; {"forget": GROUP}     (likewise)

What is wrong with a request is a 400 that says it, and changed nothing; a version that is not supported and a group
that is not known are what Replicache's pages have, with the status 200. 503: the database did not do it, try again.
500: a fault of the server, which its log has.

It is Python's own server, with a thread for each connection. A program behind which there is a network puts a real one
before it, with TLS, and with a limit on what one address may ask for.
"""

from __future__ import annotations

import contextlib
import io
import json
import logging
import socket
import sys
import threading
import time
from collections.abc import Callable
from http.server import BaseHTTPRequestHandler, ThreadingHTTPServer
from typing import Any, cast

from .bodies import MOST_BYTES, BadRequest, NotSupported, read_object, read_pull, read_push, uuid_in
from .databases import Counts, Unavailable
from .losses import Losses
from .pokes import Pokes
from .space import Space, StateNotFound

Json = Any
Address = Any

MOST_CONNECTIONS = 256
"""How many connections may be open; one more is closed at once."""
IDLE = 30.0
"""How many seconds a connection waits for its next bytes, or for its client to take some."""
READING = 30.0
"""How many seconds a body may take in all."""
HEARTBEAT = 10.0
"""How many seconds a stream is silent at the most. By what it sends then it finds out whether its client is there."""
STEP = 1 << 16

log = logging.getLogger("server")


class Answer(Exception):
    """The request is answered with this status and this error."""

    def __init__(self, status: int, error: str) -> None:
        super().__init__(error)
        self.status = status


class Server(ThreadingHTTPServer):
    """The space behind HTTP."""

    daemon_threads = True
    request_queue_size = 128

    def __init__(
        self,
        space: Space,
        pokes: Pokes,
        counts: Counts,
        *,
        port: int = 0,
        schemas: frozenset[str] = frozenset(["1"]),
        authorization: str = "",
        on_trial: bool = False,
    ) -> None:
        """`schemas`: which versions are supported. `authorization`: the header that a request needs, if any."""
        self._free = threading.Semaphore(MOST_CONNECTIONS)
        super().__init__(("127.0.0.1", port), Handler)
        self.space, self.pokes, self.counts = space, pokes, counts
        self.schemas, self.authorization, self.on_trial = schemas, authorization, on_trial
        self.losses = Losses()
        self._lock = threading.Lock()
        self._version, self._version_at = 0, -1
        self.address = f"http://127.0.0.1:{self.server_address[1]}"

    def version_at(self, count: int) -> int:
        """The space's version after so many pokes. It is read once for all streams. Raises `Unavailable`."""
        with self._lock:
            if self._version_at != count:
                self._version, self._version_at = self.space.version(), count
            return self._version

    def process_request(self, request: Any, client_address: Address) -> None:
        """A thread for the connection, while there may be more of them."""
        if not self._free.acquire(blocking=False):
            self.counts.add("connections refused")
            self.shutdown_request(request)
            return
        try:
            super().process_request(request, client_address)
        except BaseException:
            self._free.release()  # no thread was started
            raise

    def process_request_thread(self, request: Any, client_address: Address) -> None:
        """The connection, on its thread."""
        try:
            super().process_request_thread(request, client_address)
        finally:
            self._free.release()

    def handle_error(self, request: Any, client_address: Address) -> None:
        """A connection that breaks or is silent is no error of the server."""
        if not isinstance(sys.exc_info()[1], OSError):
            log.exception("a request failed")


class Handler(BaseHTTPRequestHandler):
    """The requests of a connection."""

    server: Server
    protocol_version = "HTTP/1.1"
    timeout = IDLE

    def setup(self) -> None:
        """A response goes out at once."""
        super().setup()
        self.connection.setsockopt(socket.IPPROTO_TCP, socket.TCP_NODELAY, 1)

    def log_message(self, format: str, *args: object) -> None:
        """Nothing is logged."""

    def do_GET(self) -> None:
        """A stream, or the report."""
        trial = {"/rows": self._rows} if self.server.on_trial else {}
        self._answered({"/poke": self._stream, **trial})

    def do_POST(self) -> None:
        """A push or a pull."""
        trial = {"/trial": self._trial} if self.server.on_trial else {}
        self._answered({"/push": self._push, "/pull": self._pull, **trial})

    def _answered(self, endpoints: dict[str, Callable[[], None]]) -> None:
        """Does what is asked. What keeps it from that is the answer."""
        try:
            endpoint = endpoints.get(self.path.partition("?")[0])
            if endpoint is None:
                raise Answer(404, f"there is no {self.command} of {self.path[:100]}")
            if self.server.authorization and self.headers.get("authorization") != self.server.authorization:
                raise Answer(401, "the header authorization is not the one that is needed")
            endpoint()
        except BadRequest as wrong:
            self._fails(400, str(wrong), "requests that are bad")
        except Unavailable as error:
            log.warning("the database: %s", error)
            self._fails(503, "the database did not do it: try again", "requests without the database")
        except Answer as answer:
            self.close_connection = True  # the body may not have been read
            self._fails(answer.status, str(answer), f"requests of status {answer.status}")
        except OSError:
            raise  # the connection broke
        except Exception:
            log.exception("%s %s failed", self.command, self.path[:100])
            self.close_connection = True
            self._fails(500, "the server failed: its log says why", "requests that failed")

    def _fails(self, status: int, error: str, what: str) -> None:
        self.server.counts.add(what)
        self._send(status, {"error": error})

    def _body(self) -> bytes:
        """The body, within its size and its time."""
        lengths: list[str] = self.headers.get_all("content-length", [])
        length = lengths[0] if len(lengths) == 1 and "transfer-encoding" not in self.headers else ""
        if not (length.isascii() and length.isdigit() and len(length) < 20):
            raise Answer(411, "a request has one content-length, and no transfer-encoding")
        if int(length) > MOST_BYTES:
            raise Answer(413, f"a body has at most {MOST_BYTES} bytes: push fewer mutations at a time")
        stream = cast(io.BufferedReader, self.rfile)
        parts, left, end = [], int(length), time.monotonic() + READING
        while left > 0:
            part = stream.read1(min(left, STEP))
            if not part or time.monotonic() > end:
                raise Answer(408, "the body did not come")
            parts.append(part)
            left -= len(part)
        return b"".join(parts)

    # ---- push and pull

    def _push(self) -> None:
        self._unless_lost(self._done)

    def _done(self, body: bytes) -> Json:
        self.server.space.push(read_push(body, self.server.schemas))
        return {}

    def _pull(self) -> None:
        self._unless_lost(lambda body: self.server.space.pull(read_pull(body, self.server.schemas)))

    def _unless_lost(self, do: Callable[[bytes], Json]) -> None:
        """Does what is asked and answers, where neither the request nor the response is to be lost."""
        server, body = self.server, self._body()
        if server.losses.loses():
            return self._lose("requests lost")
        response = self._answer_of(do, body)
        if server.losses.loses():
            return self._lose("responses lost")
        self._send(200, response, is_cut=server.losses.cuts())

    def _lose(self, what: str) -> None:
        self.server.counts.add(what)
        self.close_connection = True

    def _answer_of(self, do: Callable[[bytes], Json], body: bytes) -> Json:
        try:
            return do(body)
        except NotSupported as wrong:
            return {"error": "VersionNotSupported", "versionType": wrong.version}
        except StateNotFound as lost:
            log.info("state not found: %s", lost)
            return {"error": "ClientStateNotFound"}

    def _send(self, status: int, body: Json, is_cut: bool = False) -> None:
        """Sends a response; one that is cut breaks in the middle."""
        text = json.dumps(body, ensure_ascii=False, separators=(",", ":")).encode(errors="replace")
        self.send_response(status)
        self.send_header("content-type", "application/json")
        self.send_header("content-length", str(len(text)))
        if self.close_connection:
            self.send_header("connection", "close")
        self.end_headers()
        if is_cut:
            self.server.counts.add("responses cut")
            self.close_connection = True
            text = text[: len(text) // 2]
        self.wfile.write(text)

    # ---- pokes

    def _stream(self) -> None:
        """The version now, and whenever there is a new one. It ends with its client, or with the server."""
        pokes = self.server.pokes
        if self.server.losses.is_down:
            return self._lose("requests lost")
        self.send_response(200)
        self.send_header("content-type", "text/event-stream")
        self.send_header("cache-control", "no-store")
        self.end_headers()
        self.close_connection = True
        seen, told = pokes.count(), -1
        with contextlib.suppress(EOFError, Unavailable):  # the client opens another one
            while not self.server.losses.is_down:
                version = self.server.version_at(seen)
                self.wfile.write(b"data: %d\n\n" % version if version != told else b": still here\n\n")
                told = version
                seen = pokes.wait(seen, HEARTBEAT)

    # ---- trials

    def _rows(self) -> None:
        self._send(200, self.server.space.report())

    def _trial(self) -> None:
        words = read_object(self._body())
        self.server.losses.change(words)
        if "forget" in words:
            self.server.space.forget(uuid_in(words, "forget"))
        self._send(200, {})
        self.server.pokes.poke()  # a stream of a server that is down ends
