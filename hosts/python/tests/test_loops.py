"""A loop by a clock that the test turns."""

from __future__ import annotations

import threading
import unittest

from giqaymu.loops import Clock, Closed, Loop, RequestOptions


class Turned(Clock):
    """A clock that stands still until it is turned."""

    def __init__(self) -> None:
        self._change = threading.Condition()
        self._now = 1000.0
        self._waits: tuple[threading.Condition, float | None] | None = None
        self.waits = 0

    def now(self) -> float:
        return self._now

    def wait(self, change: threading.Condition, seconds: float | None) -> None:
        with self._change:
            self._waits = change, seconds
            self.waits += 1
            self._change.notify_all()
        change.wait(10)

    def asked(self, waits: int) -> float | None:
        """How long the loop waits, when it has begun so many waits."""
        with self._change:
            assert self._change.wait_for(lambda: self.waits >= waits, 5), f"{self.waits} waits, not {waits}"
            assert self._waits is not None
            return self._waits[1]

    def turn(self, seconds: float) -> None:
        """So much later."""
        assert self._waits is not None
        self._now += seconds
        with self._waits[0]:
            self._waits[0].notify_all()


class Loops(unittest.TestCase):
    """The pace."""

    def loop(self, *answers: bool, **words: float) -> tuple[Loop, Turned, list[float]]:
        clock, left, at = Turned(), list(answers), list[float]()

        def job() -> bool:
            at.append(round(clock.now() - 1000, 3))
            return left.pop(0) if left else True

        loop = Loop("test", job, RequestOptions(0.03, 1.0), clock=clock, **words)
        loop.start()
        self.addCleanup(loop.join, 5)
        self.addCleanup(loop.end)
        clock.asked(1)
        return loop, clock, at

    def test_a_delay_after_failures_doubles(self) -> None:
        loop, clock, at = self.loop(*[False] * 8, True)
        done = loop.send()
        delays = []
        for waits in range(2, 10):
            delay = clock.asked(waits)
            assert delay is not None
            delays.append(round(delay, 3))
            clock.turn(delay)
        done.result(5)
        self.assertEqual(delays, [0.03, 0.06, 0.12, 0.24, 0.48, 0.96, 1.0, 1.0])
        self.assertIsNone(clock.asked(10))
        loop.want()
        delay = clock.asked(11)
        assert delay is not None
        self.assertEqual(round(delay, 3), 0.03)  # a success ended it
        self.assertEqual(len(at), 9)

    def test_hurry_and_urgent(self) -> None:
        loop, clock, at = self.loop(False, False, False)
        loop.want()
        clock.asked(2)
        loop.want(urgent=True)
        self.assertEqual(round(clock.asked(3) or 0, 3), 0.06)
        clock.turn(0.06)
        self.assertEqual(round(clock.asked(4) or 0, 3), 0.12)
        loop.hurry()
        self.assertEqual(round(clock.asked(5) or 0, 3), 0.03)
        clock.turn(0.03)
        clock.asked(6)
        self.assertEqual(at, [0.0, 0.0, 0.06, 0.09])

    def test_wants_before_a_start_are_one(self) -> None:
        loop, clock, at = self.loop(debounce=0.01)
        for _ in range(5):
            loop.want()
        clock.asked(2)
        futures = [loop.send() for _ in range(5)]
        clock.turn(0.01)
        for future in futures:
            future.result(5)
        self.assertEqual(at, [0.01])
        loop.want(0.5)
        while (clock.asked(clock.waits) or 0) < 0.4:
            pass
        loop.want(0.2)
        self.assertEqual(round(clock.asked(clock.waits + 1) or 0, 3), 0.2)
        clock.turn(0.2)
        while len(at) < 2:
            pass
        self.assertEqual(at, [0.01, 0.21])

    def test_an_interval(self) -> None:
        loop, clock, at = self.loop(interval=60.0)
        self.assertEqual(clock.asked(1), 60.0)
        clock.turn(60.0)
        self.assertEqual(clock.asked(2), 60.0)
        loop.pause()
        self.assertIsNone(clock.asked(3))
        self.assertEqual(at, [60.0])

    def test_the_end(self) -> None:
        loop, clock, _ = self.loop(False)
        waits = loop.send()
        clock.asked(2)
        given_up = loop.send()
        given_up.cancel()
        loop.end()
        for future in (waits, loop.send()):
            self.assertIsInstance(future.exception(5), Closed)
        loop.join(5)
        self.assertFalse(loop.is_alive())

    def test_a_job_that_raises(self) -> None:
        def job() -> bool:
            raise KeyError("on purpose")

        clock = Turned()
        loop = Loop("test", job, RequestOptions(0.03, 1.0), clock=clock)
        loop.start()
        clock.asked(1)
        loop.want()
        self.assertEqual(round(clock.asked(2) or 0, 3), 0.03)
        loop.end()
