"""How requests are sent where the program sends none itself: HTTP by `urllib3`.

Nothing that comes over a socket is trusted: the size of a response is bounded and so is its time, a line of a stream is
bounded too, and what a body says is judged by who reads it. The pool makes no retries and follows no redirects: the
loops try again. This module is imported where a client has a URL, so that programs without one don't need `urllib3`.
"""

from __future__ import annotations

import contextlib
import os
import queue
import socket
import threading
import time
from collections.abc import Mapping
from typing import Protocol

import urllib3

from .loops import RequestOptions
from .transport import Answered, Offline, Reply

CONNECT = 5.0
"""How many seconds a connection waits at the most."""
STEP = 1 << 16
"""How many bytes of a response are read at once."""
LINE = 1 << 12
"""How many bytes of a line of a stream are read at once."""


class Http:
    """A transport over one pool of connections, which are kept.

    Each request is made on a thread of its own, a daemon, so that the wait for it has an end whatever the server, the
    names' resolver or the network does: after `timeout` seconds in all it is given up, and its response is nobody's.
    `_lock` protects `_waiting`, by which `close` ends all waits, and `_is_closed`.
    """

    def __init__(self, options: RequestOptions) -> None:
        self._options = options
        timeout = urllib3.Timeout(connect=min(CONNECT, options.timeout), read=options.timeout)
        self._pool = urllib3.PoolManager(retries=False, timeout=timeout, maxsize=4)
        self._lock = threading.Lock()
        self._is_closed = False
        self._waiting: set[queue.SimpleQueue[Reply | Exception]] = set()

    def __call__(self, url: str, body: bytes, headers: Mapping[str, str]) -> Reply:
        """Posts the body."""
        answer: queue.SimpleQueue[Reply | Exception] = queue.SimpleQueue()
        with self._lock:
            if self._is_closed:
                raise Offline("the client was closed")
            self._waiting.add(answer)
        words = answer, url, body, dict(headers)
        threading.Thread(target=self._post, args=words, name="giqaymu-post", daemon=True).start()
        try:
            got = answer.get(timeout=self._options.timeout)
        except queue.Empty:
            got = self._late(url)
        with self._lock:
            self._waiting.discard(answer)
        if isinstance(got, Exception):
            raise got
        return got

    def _post(
        self, answer: queue.SimpleQueue[Reply | Exception], url: str, body: bytes, headers: dict[str, str]
    ) -> None:
        try:
            # A response that breaks in the middle is none: urllib3 1 hands over what came of it unless it is told so.
            options = {"preload_content": False, "redirect": False, "enforce_content_length": True}
            response = self._pool.request("POST", url, body=body, headers=headers, **options)
            try:
                answer.put(Reply(response.status, _whole(response, self._options)))
            except BaseException:
                response.close()
                raise
            finally:
                response.release_conn()
        except urllib3.exceptions.ReadTimeoutError:
            answer.put(self._late(url))
        except (urllib3.exceptions.HTTPError, OSError) as lost:
            answer.put(Offline(f"{url}: {lost}"))
        except Exception as error:
            answer.put(error)

    def _late(self, url: str) -> Offline:
        # A server that sends no byte meets the connection's end of a wait or the caller's, which end together.
        return Offline(f"{url}: no whole response in {self._options.timeout} seconds (RequestOptions.timeout)")

    def close(self) -> None:
        """Ends all waits, and closes the connections that nobody uses."""
        with self._lock:
            self._is_closed = True
            for answer in self._waiting:
                answer.put(Offline("the client was closed"))
        self._pool.clear()


class _Body(Protocol):
    def read(self, amount: int, /) -> bytes:
        """So many bytes, or less at the end."""


def _whole(response: _Body, options: RequestOptions) -> bytes:
    """The body, within its bounds."""
    end = time.monotonic() + options.timeout
    parts: list[bytes] = []
    length = 0
    while part := response.read(STEP):
        parts.append(part)
        length += len(part)
        if length > options.max_bytes:
            raise OSError(f"the response has more than {options.max_bytes} bytes (RequestOptions.max_bytes)")
        if time.monotonic() > end:
            raise OSError(f"the response took more than {options.timeout} seconds (RequestOptions.timeout)")
    return b"".join(parts)


class Stream:
    """A stream of server-sent events. A server that has none sends a comment, at least every `QUIET` seconds."""

    QUIET = 25.0

    def __init__(self, url: str, headers: Mapping[str, str]) -> None:
        """Opens it. Raises `Offline`."""
        timeout = urllib3.Timeout(connect=CONNECT, read=self.QUIET)
        pool = urllib3.PoolManager(retries=False, timeout=timeout)
        words = {"accept": "text/event-stream", **headers}
        try:
            self._response = pool.request("GET", url, headers=words, preload_content=False, redirect=False)
            # A copy of the socket's descriptor: to shut the connection down ends a read of another thread.
            self._socket = socket.socket(fileno=os.dup(self._response.fileno()))
        except (urllib3.exceptions.HTTPError, OSError) as lost:
            raise Offline(f"{url}: {lost}") from lost
        if self._response.status != 200:
            self.close()
            raise Answered(url, self._response.status, b"")

    def next_is_event(self) -> bool:
        """Whether the next line is one of data; anything else is none. Raises `Offline` at the end of the stream."""
        try:
            line: bytes = self._response.readline(LINE)
        except (urllib3.exceptions.HTTPError, OSError, ValueError) as lost:
            raise Offline(f"the stream broke: {lost}") from lost
        if not line:
            raise Offline("the stream ended")
        return line.startswith(b"data:")

    def shut(self) -> None:
        """Ends a read of another thread."""
        with contextlib.suppress(OSError):
            self._socket.shutdown(socket.SHUT_RDWR)

    def close(self) -> None:
        """Closes the connection."""
        self._response.close()
        self._socket.close()
