"""Pushes and pulls: what the two loops do, and what an answer of the server's leads to.

The push's thread calls `push`, the pull's thread `pull`, the recovery's `post`. `_lock` protects `online`, the
credentials and what was pushed; no request is made and no function of the program's is called with it held.

A push body has all that is pending. What an answered push had is left out of the next ones, until a pull that began
after the answer doesn't confirm it: a server may have lost what it answered. Then, and after any failure, all is sent.
"""

from __future__ import annotations

import contextlib
import json
import logging
import threading
import time
import uuid
from collections.abc import Callable, Iterator
from typing import Any

from .callbacks import Announcer, UpdateNeeded
from .edge import Ended, Refusal, VersionKind, Why, json_bytes
from .groups import AGAIN, KeptGroup
from .loops import Closed, Loop, RequestOptions
from .transport import Answered, Offline, Reply

Json = Any

MOST_AUTHS = 8
"""How often one request is made with other credentials."""
AGAIN_AFTER = 0.5
"""How many seconds after a pull that confirmed nothing all is pushed again; it doubles."""
REST = 4
"""A pull runs all that is pending again. That takes the pull's thread one part in so many of the time, at the most."""
MOST_REST = 2.0

log = logging.getLogger("giqaymu")

Poster = Callable[[bytes, dict[str, str]], Reply]
"""Sends a body with these headers (Replicache: `Pusher`, `Puller`). It raises `Offline` where no whole response came,
and may be called by two threads at the same time."""


class Syncer:
    """The loops of a group, and its requests."""

    def __init__(
        self,
        kept: KeptGroup,
        announcer: Announcer,
        options: RequestOptions,
        *,
        pusher: Poster | None,
        puller: Poster | None,
        auth: str,
        get_auth: Callable[[], str | None] | None,
        push_delay: float,
        pull_interval: float | None,
    ) -> None:
        self._kept, self._announcer, self._options = kept, announcer, options
        self._posters = {"push": pusher, "pull": puller}
        self._lock = threading.Lock()
        self._auth, self._get_auth = auth, get_auth
        self.online = False
        """Whether the last request was answered with the status 200."""
        self.on_online: Callable[[], None] = lambda: None
        """Called when the server can be reached again."""
        self._syncing = 0
        self._is_stopped = False
        self._pushed: dict[str, int] = {}  # of each client, the highest ID that an answered push had
        self._sends_all = False
        self._stalled = 0  # how many pulls in a row did not confirm the oldest pending mutation
        self.push_loop = Loop("push", self.push, options, debounce=push_delay)
        self.pull_loop = Loop("pull", self.pull, options, interval=pull_interval if puller else None)

    def _set_online(self, online: bool) -> None:
        with self._lock:
            if self.online == online:
                return
            self.online = online
            self._announcer.online(online)
        if online:
            self.push_loop.hurry()
            self.pull_loop.hurry()
            self.on_online()

    @contextlib.contextmanager
    def _sync(self) -> Iterator[None]:
        """A push or a pull is under way."""
        self._count_sync(1)
        try:
            yield
        finally:
            self._count_sync(-1)

    def _count_sync(self, more: int) -> None:
        with self._lock:
            was, self._syncing = self._syncing, self._syncing + more
            if (was == 0) != (self._syncing == 0):
                self._announcer.syncs(self._syncing > 0)

    def not_found(self) -> None:
        """The server does not know the group."""
        if not self._stop():
            return
        aside = self._kept.lose("ClientStateNotFound")
        if aside is not None:
            self._announcer.set_aside(aside)
        self._announcer.not_found()

    def needs_update(self, version: str | None) -> None:
        """The server does not support a version of this program's."""
        if self._stop():
            self._announcer.update_needed(UpdateNeeded("VersionNotSupported", version))

    def _stop(self) -> bool:
        """The loops start no run any more. Whether they did until now."""
        with self._lock:
            was, self._is_stopped = self._is_stopped, True
        self.push_loop.pause()
        self.pull_loop.pause()
        return not was

    # ---- requests

    def can(self, what: str) -> bool:
        """Whether there is somewhere to push or to pull from."""
        return self._posters[what] is not None and not self._is_stopped

    def post(self, what: str, body: bytes, *, recovers: bool = False) -> bytes:
        """The body of a response with the status 200, else `Offline`. A 401 asks for other credentials.

        Another answer to what is recovered does not mean that this group is offline.
        """
        poster = self._posters[what]
        assert poster is not None
        try:
            reply = self._authorized(poster, body)
            if reply.status != 200:
                raise Answered(what, reply.status, reply.body)
        except Offline as lost:
            if not recovers or not isinstance(lost, Answered):
                self._set_online(False)
            raise
        except Exception as error:  # of a function of the program's own
            self._set_online(False)
            self._announcer.error(what, error)
            raise Offline(f"{what}: {error!r}") from error
        self._set_online(True)
        return reply.body

    def _authorized(self, poster: Poster, body: bytes) -> Reply:
        for tries in range(MOST_AUTHS):
            reply = poster(body, self.headers())
            if reply.status != 401 or self._get_auth is None or tries == MOST_AUTHS - 1:
                break
            auth = self._get_auth()
            if auth is None:
                break
            with self._lock:
                self._auth = auth
        return reply

    def headers(self) -> dict[str, str]:
        """The headers of a request."""
        words = {"content-type": "application/json", "x-replicache-requestid": uuid.uuid4().hex}
        with self._lock:
            return {**words, "authorization": self._auth} if self._auth else words

    # ---- pushing

    def push(self) -> bool:
        """The job of the push's thread: whether it succeeded."""
        if not self.can("push") or self._kept.oldest() is None:
            return True
        try:
            body, last = self._push_body()
            if not last:
                return True
            with self._sync():
                answer = self.post("push", body)
            if self._is_error(answer):
                return True
        except Closed:
            return True
        except Refusal as refusal:
            return self._refused("push", refusal)
        except Offline as lost:
            return self._lost("push", lost)
        with self._lock:
            self._pushed.update(last)
        self.pull_loop.want()
        return True

    def _push_body(self) -> tuple[bytes, dict[str, int]]:
        """A body of what is pending and no answered push had, and the last ID that it has of each client."""
        with self._lock:
            sends_all, self._sends_all = self._sends_all, False
            pushed = {} if sends_all else dict(self._pushed)
        next_one = self._kept.unpushed(pushed)
        if next_one is None:
            return b"", {}
        skip, first = next_one
        body = self._kept.push_body(skip)
        whole = json.loads(body)
        if skip and [first] != [(one["clientID"], one["id"]) for one in whole["mutations"][:1]]:
            # A pull has confirmed some since.
            body = self._kept.push_body()
            whole = json.loads(body)
        mutations = [one for one in whole["mutations"] if one["id"] > pushed.get(one["clientID"], 0)]
        if len(mutations) < len(whole["mutations"]):
            body = json_bytes({**whole, "mutations": mutations})
        return body, {one["clientID"]: one["id"] for one in mutations}

    def _is_error(self, body: bytes) -> bool:
        """Does what an error of Replicache's asks for; whether the body is one."""
        error, version = error_in(body)
        if error is None:
            return False
        if error == "ClientStateNotFound":
            self.not_found()
        elif error == "VersionNotSupported":
            self.needs_update(version)
        else:
            raise Answered("push", 200, body)
        return True

    def _lost(self, what: str, lost: Offline) -> bool:
        if what == "push":
            with self._lock:
                self._sends_all = True  # the server may lack what an answered push had
        if isinstance(lost, Answered):
            self._announcer.error(what, lost)
        else:
            log.info("%s: %s", what, lost)
        return False

    def _refused(self, what: str, refusal: Refusal) -> bool:
        """What becomes of a refused push or pull: it ends, or is tried again later."""
        if refusal.why in (Why.STATE_NOT_FOUND, Why.CLOSED):
            self.not_found()
            return True
        if refusal.why is Why.VERSION_NOT_SUPPORTED:
            kind = VersionKind(refusal.code)
            self.needs_update(None if kind is VersionKind.UNKNOWN else kind.name.lower())
            return True
        if refusal.why not in AGAIN:
            self._announcer.error(what, refusal)
        return False

    # ---- pulling

    def pull(self) -> bool:
        """The job of the pull's thread: whether it succeeded."""
        if not self.can("pull"):
            return True
        oldest = self._kept.oldest()
        with self._lock:
            pushed = dict(self._pushed)
        try:
            body = self._answered_pull()
            begun = time.monotonic()
            ended, keys = self._kept.end_pull(body)
            self.pull_loop.rest = min(MOST_REST, REST * (time.monotonic() - begun))
        except Closed:
            return True
        except Refusal as refusal:
            return self._refused("pull", refusal)
        except Offline as lost:
            return self._lost("pull", lost)
        if ended is Ended.APPLIED:
            self._announcer.changed(keys)
        self._look_at_pending(pushed, oldest)
        return True

    def _answered_pull(self) -> bytes:
        body = self._kept.begin_pull()
        try:
            with self._sync():
                return self.post("pull", body)
        except BaseException:
            self._kept.forget_pull()
            raise

    def _look_at_pending(self, pushed: dict[str, int], before: tuple[str, int] | None) -> None:
        """All is pushed again where something is pending that was pushed before the pull, ever later while it stays."""
        oldest = self._kept.oldest()
        with self._lock:
            if oldest is None or oldest[1] > pushed.get(oldest[0], 0):
                self._stalled = 0
                return
            self._stalled = self._stalled + 1 if oldest == before else 1
            self._sends_all = True
            delay = min(self._options.max_delay, AGAIN_AFTER * 2.0 ** min(self._stalled - 1, 20))
        self.push_loop.want(delay)


def error_in(body: bytes) -> tuple[str | None, str | None]:
    """The error that a response says, and its version; None where it says none. Bodies that are no JSON say none."""
    try:
        answer = json.loads(body)
    except (ValueError, RecursionError):
        return None, None
    if not isinstance(answer, dict) or "error" not in answer:
        return None, None
    version = answer.get("versionType")
    return str(answer["error"])[:200], version if version in ("push", "pull", "schema") else None
