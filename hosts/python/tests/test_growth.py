"""Groups that grow: nobody counts slots."""

from __future__ import annotations

import json
import threading
import time
from typing import Any
from unittest import mock

import todo
from giqaymu import Offline, Refusal, Reply, TooLarge, Why, groups, playing
from support import WithServer, rows


def offline(body: bytes, headers: dict[str, str]) -> Reply:
    """A poster that reaches nobody."""
    raise Offline("on purpose")


class Grows(WithServer):
    """From few slots on."""

    def test_by_mutations_offline(self) -> None:
        for store in (None, self.store):
            anna = self.rep(slots=64, pusher=offline, puller=offline, store=store, durability="write")
            bert = anna.client()
            for number in range(200):
                (anna if number % 2 else bert).mutate.once(number % 30)
            self.assertGreaterEqual(anna._kept.slots, 256)
            pending = anna.experimental_pending_mutations()
            self.assertEqual([one.args for one in pending], [number % 30 for number in range(200)])
            self.assertEqual([one.id for one in pending], [number // 2 + 1 for number in range(200)])
            library = json.loads(anna._kept.push_body())["mutations"]
            self.assertEqual([(one["clientID"], one["id"]) for one in library], [one[:2] for one in pending])
            self.assertEqual(rows(anna)["counted"], 200)
            anna.close()

    def test_a_group_that_is_opened_again_has_room(self) -> None:
        words: dict[str, Any] = {"slots": 64, "pusher": offline, "puller": offline, "store": self.store}
        anna, made = self.rep(**words), 0
        while anna._kept._opened.places[playing.TELL].slots().ordinary > 8:
            anna.mutate.once(made % 3)
            made += 1
        self.assertEqual(anna._kept.slots, 64)
        anna.close()
        anna = self.rep(**words)
        self.assertEqual((anna._kept.slots, rows(anna)["counted"]), (128, made))
        with mock.patch.object(groups.KeptGroup, "_grow") as grow:
            anna.mutate.once(0)
            grow.assert_not_called()

    def test_by_a_pull(self) -> None:
        for words in ({}, {"rules": todo.RULES}):
            self.server.space.mutators = todo.RULES_AT_SERVER if words else todo.MUTATORS
            for number in range(2000):
                self.server.space.do("add", {"id": f"{words} {number}", "text": "t"})
            anna = self.rep(slots=16, **words)
            self.holds(lambda: rows(anna) == self.server.space.values())
            self.assertGreaterEqual(anna._kept.slots, 256)
            anna.mutate.add(id=f"x{len(words)}", text="more")
            self.quiet(anna)
            anna.close()

    def test_by_two_maps_side_by_side(self) -> None:
        version = 1

        def pulled(body: bytes, headers: dict[str, str]) -> Reply:
            news = json.loads(body)["cookie"] != version
            patch = [{"op": "put", "key": f"{number:02}", "value": version} for number in range(57 if news else 0)]
            return Reply(200, json.dumps({"cookie": version, "lastMutationIDChanges": {}, "patch": patch}).encode())

        anna = self.rep(slots=16, pusher=offline, puller=pulled, pull_interval=None)
        for version, slots in ((1, 16), (2, 32)):
            anna.pull(now=True).result(10)
            self.assertEqual((set(rows(anna).values()), anna._kept.slots), ({version}, slots))

    def test_by_a_pull_that_confirms_bit_by_bit(self) -> None:
        anna = self.rep(slots=1024, pusher=offline, pull_interval=None)
        for number in range(300):
            anna.mutate.once(number)
        for number in range(300):
            self.server.space.do("add", {"id": str(number), "text": "t"})
        anna.pull(now=True).result(10)  # confirms nothing, and is applied at once
        self.assertEqual(rows(anna)["todos"], 300)
        self.assertEqual(rows(anna)["counted"], 300)

    def test_twice_under_load(self) -> None:
        anna = self.rep(slots=512, pull_interval=0.02)
        began, clients = anna._kept.slots, [anna, anna.client(), anna.client()]
        told: list[Any] = []
        anna.subscribe(lambda tx: tx.get("counted"), told.append)
        stop = threading.Event()
        wrong: list[Any] = []

        def work(name: int) -> None:
            for number in range(250):
                clients[name].mutate.once(f"{name}-{number}")

        def ask() -> None:
            last = 0
            while not stop.is_set():
                count = clients[0].query(lambda tx: tx.get("counted", 0))
                if count < last:
                    wrong.append((last, count))
                last = count

        asking = threading.Thread(target=ask)
        threads = [threading.Thread(target=work, args=[name]) for name in range(3)]
        for thread in [asking, *threads]:
            thread.start()
        for thread in threads:
            thread.join()
        for client in clients:
            self.quiet(client)
        stop.set()
        asking.join()
        self.assertGreaterEqual(anna._kept.slots, 4 * began)
        self.assertEqual(wrong, [])
        self.holds(lambda: rows(anna) == self.server.space.values())
        self.assertEqual(self.server.space.values()["counted"], 750)
        self.assertEqual(self.server.space.counts["gaps"] + self.server.space.counts["refused"], 0)
        self.holds(lambda: told[-1] == 750)
        self.assertEqual(told, sorted(told, key=lambda count: count or 0))

    def test_clients_go_on_with_their_ids(self) -> None:
        anna = self.rep(slots=64)
        for number in range(5):
            anna.mutate.once(number)
        self.quiet(anna)
        self.assertEqual(anna._kept._place(anna._seat.number).refresh(), 5)
        with anna._kept._lock:
            anna._kept._grow()
        anna.mutate.once("x")
        self.assertEqual(self.server.space.counts["gaps"], 0)
        self.quiet(anna)
        self.assertEqual(self.server.space.values()["counted"], 6)

    def test_rules_that_refuse_by_now(self) -> None:
        self.server.space.mutators = todo.RULES_AT_SERVER
        anna = self.rep(rules=todo.RULES, slots=64, pusher=offline, pull_interval=None)
        anna.pull(now=True).result(5)
        anna.mutate.add(id="x", text="mine")
        self.server.space.do("add", {"id": "x", "text": "theirs"})
        anna.pull(now=True).result(5)
        anna.mutate.rename(id="x", text="ours")
        for number in range(100):
            anna.mutate.add(id=f"more {number}", text="t")
        self.assertGreaterEqual(anna._kept.slots, 256)
        self.assertEqual(rows(anna)["todo/x"], "ours")
        self.assertEqual(len(json.loads(anna._kept.push_body())["mutations"]), 102)

    def test_rules_are_cut_where_they_play(self) -> None:
        self.server.space.mutators = todo.RULES_AT_SERVER
        with mock.patch.object(groups, "CUT", 20):
            anna = self.rep(rules=todo.RULES, pusher=offline, pull_interval=None)
            anna._kept._next_cut = 20
            for number in range(100):
                anna.mutate.add(id=f"m{number}", text="t")
                self.server.space.do("add", {"id": f"s{number}", "text": "t"})
                anna.pull(now=True).result(5)
            self.assertEqual(len(rows(anna)), 200)
            self.assertLess(anna._kept.journal.length(), 200)

    def test_the_most(self) -> None:
        with mock.patch.object(playing, "MOST_SLOTS", 128), mock.patch.object(groups, "MOST_SLOTS", 128):
            anna = self.rep(slots=64, pusher=offline, puller=offline)
            with self.assertRaises(TooLarge) as told:
                for number in range(200):
                    anna.mutate.once(number)
            self.assertIs(told.exception.why, Why.FULL)
            self.assertIn("the most that it can have", str(told.exception))
            made = rows(anna)["counted"]
            self.assertEqual(len(anna.experimental_pending_mutations()), made)
            for number in range(3000):
                self.server.space.do("add", {"id": str(number), "text": "t"})
            errors: list[Any] = []
            bert = self.rep(slots=64, on_error=lambda what, error: errors.append((what, error)))
            self.holds(lambda: errors)
            self.assertIsInstance(errors[0][1], Refusal)
            self.assertIn("the most that it can have", str(errors[0][1]))
            bert.close()

    def test_a_query_where_no_slot_is_free(self) -> None:
        anna = self.rep(slots=64, pusher=offline, puller=offline)
        with mock.patch.object(playing, "MOST_SLOTS", 64), mock.patch.object(groups, "MOST_SLOTS", 64):
            with self.assertRaises(TooLarge):
                for number in range(200):
                    anna.mutate.once(number)
        made = len(anna.experimental_pending_mutations())
        self.assertEqual(anna.query(lambda tx: tx.get("counted")), made)

    def test_a_mutation_waits_for_a_pull_that_ends(self) -> None:
        begun, go_on = threading.Event(), threading.Event()

        def slow(tx: Any, args: Any) -> None:
            tx.set("slow", args)
            if tx.reason == "rebase" and not begun.is_set():
                begun.set()
                go_on.wait(5)

        anna = self.rep(mutators={**todo.MUTATORS, "slow": slow}, slots=64, pusher=offline, pull_interval=None)
        anna.pull(now=True).result(5)
        anna.mutate.slow(1)
        self.server.space.do("add", {"id": "x", "text": "milk"})
        pulled = anna.pull(now=True)
        self.assertTrue(begun.wait(5))

        def work() -> None:
            for number in range(50):
                anna.mutate.once(number)

        thread = threading.Thread(target=work)
        thread.start()
        time.sleep(0.1)
        self.assertTrue(thread.is_alive())
        self.assertEqual(anna._kept.slots, 64)  # it may not grow while the pull ends
        go_on.set()
        thread.join(10)
        pulled.result(5)
        self.assertEqual((rows(anna)["counted"], rows(anna)["slow"], rows(anna)["todos"]), (50, 1, 1))

    def test_between_a_request_and_its_response(self) -> None:
        asked, go_on = threading.Event(), threading.Event()

        def puller(body: bytes, headers: dict[str, str]) -> Reply:
            asked.set()
            go_on.wait(5)
            return Reply(200, json.dumps(self.server.space.pull(json.loads(body))).encode())

        self.server.space.do("add", {"id": "x", "text": "milk"})
        errors: list[Any] = []
        anna = self.rep(slots=64, pusher=offline, puller=puller, on_error=lambda what, error: errors.append(error))
        self.assertTrue(asked.wait(5))
        for number in range(100):
            anna.mutate.once(number)
        self.assertGreaterEqual(anna._kept.slots, 256)
        go_on.set()
        anna.pull(now=True).result(5)
        self.assertEqual((rows(anna)["counted"], rows(anna)["todos"], errors), (100, 1, []))
