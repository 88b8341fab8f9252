"""What a transport is: a function that posts a body. The layer's own is in `http_transport.py`."""

from __future__ import annotations

from collections.abc import Callable, Mapping
from typing import NamedTuple


class Offline(Exception):
    """The server could not be reached, or its response was lost. A transport of the program's own raises it too."""


class Answered(Offline):
    """The server answered, but not with the status 200, or with an error that is none of Replicache's."""

    def __init__(self, url: str, status: int, body: bytes) -> None:
        super().__init__(f"{url}: status {status}, {body[:200]!r}")
        self.status = status


class Reply(NamedTuple):
    """What an endpoint answered."""

    status: int
    body: bytes


Transport = Callable[[str, bytes, Mapping[str, str]], Reply]
"""Posts a body to a URL with these headers. It raises `Offline` where there is no whole response, and is called by the
push thread, the pull thread and the one that recovers, at the same time."""
