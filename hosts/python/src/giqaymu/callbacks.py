"""What a program is told beside its subscriptions, on the thread of callbacks (`subscriptions.py`)."""

from __future__ import annotations

import logging
from collections.abc import Callable
from dataclasses import dataclass
from functools import partial
from typing import NamedTuple

from .store import SetAside
from .subscriptions import Teller

log = logging.getLogger("giqaymu")


class UpdateNeeded(NamedTuple):
    """Why the program has to be updated (Replicache: `UpdateNeededReason`).

    `type` is VersionNotSupported; `version` is push, pull or schema, or None where the server doesn't say.
    """

    type: str
    version: str | None


@dataclass(frozen=True)
class Callbacks:
    """The callbacks of a program; `Replicache` says what each is."""

    on_online_change: Callable[[bool], None] | None = None
    on_sync: Callable[[bool], None] | None = None
    on_update_needed: Callable[[UpdateNeeded], None] | None = None
    on_client_state_not_found: Callable[[], None] | None = None
    on_set_aside: Callable[[SetAside], None] | None = None
    on_error: Callable[[str, Exception], None] | None = None


class Announcer:
    """Hands what happened to the thread of callbacks. What nobody wants to know is logged where it is a fault."""

    def __init__(self, teller: Teller, callbacks: Callbacks) -> None:
        self._teller, self._callbacks = teller, callbacks

    def error(self, what: str, error: Exception) -> None:
        """Something failed that trying again may not mend."""
        log.warning("%s: %s", what, error)
        call = self._callbacks.on_error
        if call is not None:
            self._teller.later(partial(call, what, error))

    def set_aside(self, one: SetAside) -> None:
        """Mutations can't be sent any more, or a file can't be read."""
        log.error("%s is kept aside, with %d mutations: %s", one.path, len(one.mutations), one.why)
        call = self._callbacks.on_set_aside
        if call is not None:
            self._teller.later(partial(call, one))

    def online(self, online: bool) -> None:
        """The server can be reached from now on, or can't."""
        call = self._callbacks.on_online_change
        if call is not None:
            self._teller.later(partial(call, online))
        self._teller.changed(set())

    def syncs(self, syncs: bool) -> None:
        """A push or a pull has begun, or the last one has ended."""
        call = self._callbacks.on_sync
        if call is not None:
            self._teller.later(partial(call, syncs))

    def update_needed(self, why: UpdateNeeded) -> None:
        """The server does not support a version."""
        log.error("an update is needed: %s", why)
        call = self._callbacks.on_update_needed
        if call is not None:
            self._teller.later(partial(call, why))

    def not_found(self) -> None:
        """The server does not know the group."""
        log.error("the server does not know the client group")
        call = self._callbacks.on_client_state_not_found
        if call is not None:
            self._teller.later(call)

    def changed(self, keys: set[str] | None) -> None:
        """These keys may have changed; None: any."""
        self._teller.changed(keys)
