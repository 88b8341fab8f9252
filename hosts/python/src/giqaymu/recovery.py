"""Sends what processes left that live no more, and listens for pokes: two threads that serve a group on the side."""

from __future__ import annotations

import json
import logging
import threading
import time
from collections import Counter
from pathlib import Path
from typing import TYPE_CHECKING, Any

from .callbacks import Announcer
from .edge import json_bytes
from .journal import State
from .loops import RequestOptions
from .store import Identity, Left, left_behind
from .syncing import Syncer, error_in
from .transport import Answered, Offline

if TYPE_CHECKING:
    from .http_transport import Stream

Json = Any
EVERY = 300.0
"""After how many seconds the folder is looked at again, where nothing is left to do."""
FINAL = (400, 413, 422)
"""Statuses by which a server judges the body of a request: what is recovered has the same body each time (RFC 9110).
Others may be mended by new credentials, another server or time."""
MOST_REFUSALS = 20
"""After so many of these in a row a group is set aside: with the usual delays after nine minutes."""
LASTS = 5.0
"""A stream of pokes that lasted for more seconds is opened again at once."""
log = logging.getLogger("giqaymu")


class Recovery(threading.Thread):
    """Pushes what is pending in groups that no process holds, and pulls, until all of it is confirmed: then they go.
    What the server refuses for ever is kept aside.

    It waits until the server can be reached: each group is locked while it is tried, and a process that opens then
    should have it. So it is tried soon after the loops had an answer, again and ever later where it failed, and each
    `EVERY` seconds.
    """

    def __init__(self, folder: Path, syncer: Syncer, announcer: Announcer, options: RequestOptions) -> None:
        super().__init__(name="giqaymu-recover", daemon=True)
        self._folder, self._syncer, self._announcer, self._options = folder, syncer, announcer, options
        self._wake = threading.Event()
        self._is_ended = False
        self._refusals: Counter[str] = Counter()  # of each group: in a row, by a status that is final
        syncer.on_online = self._wake.set

    def end(self) -> None:
        """No group is tried any more."""
        self._is_ended = True
        self._wake.set()

    def run(self) -> None:
        """The thread."""
        delay = 0.0
        while not self._is_ended and self._syncer.can("push") and self._syncer.can("pull"):
            if not self._syncer.online or self._attempt():
                delay = 0.0
            else:
                delay = min(self._options.max_delay, max(self._options.min_delay, 2 * delay))
            self._wake.wait(delay or EVERY)
            self._wake.clear()

    def _attempt(self) -> bool:
        """Tries each group, until the server can't be reached: whether nothing is left that could be sent."""
        is_done = True
        for left in left_behind(self._folder):
            if not self._try(left):
                left.let_go()
                is_done = False
            if self._is_ended or not self._syncer.online:
                return False
        return is_done

    def _try(self, left: Left) -> bool:
        """Whether its files are gone."""
        try:
            return self._recovered(left)
        except Exception as error:
            if not isinstance(error, Offline) or isinstance(error, Answered):
                self._announcer.error("recovery", error)
            return False

    def _recovered(self, left: Left) -> bool:
        """Whether its files are gone: all was confirmed, or it is kept aside."""
        state = left.state()
        if left.identity is not None and state.pending:
            try:
                error = self._sent(left.identity, state)
            except Answered as answered:
                error = self._last_word(left.identity.group, answered)
            if error is not None:
                self._announcer.set_aside(left.set_aside(error, state.pending.values()))
                return True
            if state.pending:
                return False
            self._syncer.pull_loop.want(urgent=True)
        aside = left.keep_damaged()
        if aside is not None:
            self._announcer.set_aside(aside)
        left.remove()
        return True

    def _last_word(self, group: str, answered: Answered) -> str:
        """Why the group can't be recovered, where the server has refused it often enough; else its answer is raised."""
        self._refusals[group] = self._refusals[group] + 1 if answered.status in FINAL else 0
        if self._refusals[group] < MOST_REFUSALS:
            raise answered
        del self._refusals[group]
        return str(answered)

    def _sent(self, identity: Identity, state: State) -> str | None:
        """Pushes and pulls; what is confirmed is pending no more. The server's error, where it is one for ever."""
        head = {"clientGroupID": identity.group, "profileID": identity.profile, "schemaVersion": identity.schema}
        mutations = [json.loads(mutation.text()) for mutation in state.pending.values()]
        bodies = {
            "push": {"mutations": mutations, "pushVersion": 1},
            "pull": {"cookie": state.cookie, "pullVersion": 1},
        }
        for what, words in bodies.items():
            body = self._syncer.post(what, json_bytes({**head, **words}), recovers=True)
            error, _ = error_in(body)
            if error in ("ClientStateNotFound", "VersionNotSupported"):
                return error
            if error is not None:
                raise Answered(what, 200, body)
        confirmed = _confirmed(body)
        for client, number in list(state.pending):
            if number <= confirmed.get(client, 0):
                del state.pending[client, number]
        return None


def _confirmed(body: bytes) -> dict[str, int]:
    """The ids that a pull response confirms; `Answered` where it is none."""
    try:
        changes = json.loads(body)["lastMutationIDChanges"]
        if all(type(last) is int for last in changes.values()):
            return dict(changes)
    except (ValueError, TypeError, KeyError, AttributeError, RecursionError):
        pass
    raise Answered("pull", 200, body)


class Pokes(threading.Thread):
    """Pulls whenever the server sends a line of data. A stream that broke is opened again, ever later."""

    def __init__(self, url: str, syncer: Syncer, options: RequestOptions) -> None:
        super().__init__(name="giqaymu-poke", daemon=True)
        self._url, self._syncer, self._options = url, syncer, options
        self._ending = threading.Event()
        self._stream: Stream | None = None

    def end(self) -> None:
        """Breaks the stream, also where the thread waits for a line."""
        self._ending.set()
        stream = self._stream
        if stream is not None:
            stream.shut()

    def run(self) -> None:
        """The thread."""
        delay = 0.0
        while not self._ending.is_set() and self._syncer.can("pull"):
            begun = time.monotonic()
            try:
                self._listen()
            except Offline as lost:
                log.info("pokes: %s", lost)
            has_lasted = time.monotonic() - begun > LASTS
            delay = self._options.min_delay if has_lasted else max(self._options.min_delay, 2 * delay)
            self._ending.wait(min(self._options.max_delay, delay))

    def _listen(self) -> None:
        """Listens until the stream breaks."""
        from .http_transport import Stream

        self._stream = stream = Stream(self._url, self._syncer.headers())
        try:
            self._syncer.pull_loop.want(urgent=True)  # what was poked while nobody listened
            while not self._ending.is_set():
                if stream.next_is_event():
                    self._syncer.pull_loop.want()
        finally:
            self._stream = None
            stream.close()
