"""A loop does one job on a thread of its own, whenever it is wanted, and again where it failed.

Replicache's push and pull are such loops. The rules, with the times of `RequestOptions`:

- one run at a time. All wants before a run starts are met by it; those while it goes on by one more;
- a run starts `debounce` after the first want, and `min_delay` after the last start (or the `rest` that the job asks
  for); an urgent want waits for neither;
- a run that failed is made again. The delay begins at `min_delay`, doubles to `max_delay`, and ends with a success;
- with an `interval` a run is made where none was wanted for so long.

The condition `_change` protects all fields; the job runs without it. The thread waits on it alone, so that an idle loop
takes no processor time. Each wait has an end by the clock, or by `want`, `hurry` or `end`.
"""

from __future__ import annotations

import contextlib
import logging
import threading
import time
from collections.abc import Callable
from concurrent.futures import Future, InvalidStateError
from dataclasses import dataclass

log = logging.getLogger("giqaymu")


class Closed(Exception):
    """The group was closed, by `close` or since the server does not know it."""


@dataclass(frozen=True)
class RequestOptions:
    """How requests are made (Replicache: `requestOptions`, whose delays are milliseconds). In seconds.

    A request that took `timeout` is given up, and so is a connection that isn't made in 5 seconds. A response of more
    than `max_bytes` is none.
    """

    min_delay: float = 0.030
    max_delay: float = 60.0
    timeout: float = 30.0
    max_bytes: int = 1 << 28


class Clock:
    """The time that a loop goes by, in seconds. A test turns one of its own."""

    def now(self) -> float:
        """The time."""
        return time.monotonic()

    def wait(self, change: threading.Condition, seconds: float | None) -> None:
        """Waits for a change, or for so long. The condition is held."""
        change.wait(seconds)


class Loop(threading.Thread):
    """The thread of a job, which answers whether it succeeded."""

    def __init__(
        self,
        name: str,
        job: Callable[[], bool],
        options: RequestOptions,
        *,
        debounce: float = 0.0,
        interval: float | None = None,
        clock: Clock | None = None,
    ) -> None:
        super().__init__(name=f"giqaymu-{name}", daemon=True)
        self.rest = 0.0
        """The least seconds between two starts that the job asks for."""
        self._job, self._options, self._debounce, self._interval = job, options, debounce, interval
        self._clock = clock or Clock()
        self._change = threading.Condition()
        self._due: float | None = None  # when a run was wanted for
        self._urgent = False
        self._paused = False
        self._ended = False
        self._backoff = 0.0
        self._began = float("-inf")
        self._waiting: list[Future[None]] = []

    def want(self, delay: float | None = None, *, urgent: bool = False) -> None:
        """A run is wanted, `delay` from now; without it `debounce` from now."""
        due = self._clock.now() + (self._debounce if delay is None else delay)
        # A run takes the want away before its job looks: a want that is still there is met by a run to come.
        there = self._due
        if there is not None and there <= due and not urgent:
            return
        with self._change:
            self._due = due if self._due is None else min(self._due, due)
            self._urgent = self._urgent or urgent
            self._change.notify_all()

    def send(self, *, urgent: bool = False) -> Future[None]:
        """A run is wanted. The future is done when a run that began after this call succeeded; `Closed` at the end."""
        done: Future[None] = Future()
        with self._change:
            if self._ended:
                done.set_exception(Closed("the group is closed"))
                return done
            self._waiting.append(done)
        self.want(urgent=urgent)
        return done

    def hurry(self) -> None:
        """The server can be reached: a delay after failures ends."""
        with self._change:
            self._backoff = 0.0
            self._change.notify_all()

    def pause(self) -> None:
        """No run starts any more, until the end."""
        with self._change:
            self._paused = True
            self._change.notify_all()

    def end(self) -> None:
        """No run starts any more; what waits for one is told `Closed`. A run that goes on is not waited for."""
        with self._change:
            self._ended = True
            waiting, self._waiting = self._waiting, []
            self._change.notify_all()
        _close(waiting)

    def _next(self, idle_since: float) -> float | None:
        """When the next run starts; None: not before something is wanted."""
        if self._paused:
            return None
        if self._urgent:
            return float("-inf")
        due = self._due
        if due is None:
            if self._interval is None:
                return None
            due = idle_since + self._interval
        return max(due, self._began + (self._backoff or max(self._options.min_delay, self.rest)))

    def _wait(self) -> bool:
        """Waits for the next run, and takes away what it meets. Whether there is one."""
        idle_since = self._clock.now()
        while not self._ended:
            start = self._next(idle_since)
            left = None if start is None else start - self._clock.now()
            if left is not None and left <= 0:
                self._due, self._urgent = None, False
                self._began = self._clock.now()
                return True
            self._clock.wait(self._change, left)
        return False

    def run(self) -> None:
        """The thread."""
        while True:
            with self._change:
                if not self._wait():
                    return
                waiting, self._waiting = self._waiting, []
            try:
                has_succeeded = self._job()
            except Exception:
                log.exception("%s", self.name)
                has_succeeded = False
            self._after(has_succeeded, waiting)

    def _after(self, has_succeeded: bool, waiting: list[Future[None]]) -> None:
        """What follows a run: who waited is told, or waits for the next one."""
        with self._change:
            if has_succeeded:
                self._backoff = 0.0
            else:
                options = self._options
                self._backoff = min(options.max_delay, max(options.min_delay, 2 * self._backoff))
                self._due = self._clock.now()
                if not self._ended:
                    self._waiting = waiting + self._waiting
                    return
        if not has_succeeded:
            _close(waiting)
            return
        for done in waiting:
            with contextlib.suppress(InvalidStateError):  # the program gave the future up
                done.set_result(None)


def _close(waiting: list[Future[None]]) -> None:
    for done in waiting:
        with contextlib.suppress(InvalidStateError):
            done.set_exception(Closed("the group is closed"))
