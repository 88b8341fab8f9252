"""Queries, mutations, subscriptions, callbacks, and what happens to requests."""

from __future__ import annotations

import contextlib
import json
import socket
import threading
import time
from typing import Any
from unittest import mock

import todo
from giqaymu import (
    Answered,
    Closed,
    Diff,
    Offline,
    Refusal,
    Reply,
    RequestOptions,
    UpdateNeeded,
    Why,
    edge,
    groups,
    playing,
    replicache,
    subscriptions,
)
from support import QUICK, WithServer, rows


def offline(body: bytes, headers: dict[str, str]) -> Reply:
    """A poster that reaches nobody."""
    raise Offline("on purpose")


def applied(cookie: int, **values: Any) -> Reply:
    """A pull response with these rows."""
    patch = [{"op": "put", "key": key, "value": value} for key, value in values.items()]
    return Reply(200, json.dumps({"cookie": cookie, "lastMutationIDChanges": {}, "patch": patch}).encode())


class Calls(WithServer):
    """What a program calls."""

    def test_two_groups_agree(self) -> None:
        anna, bert = self.rep(poke_url=self.server.url + "/poke"), self.rep(poke_url=self.server.url + "/poke")
        seen: list[Any] = []
        bert.subscribe(lambda tx: [row.key for row in tx.scan("todo/")], seen.append)
        self.assertEqual(anna.mutate.add(id="x", text="milk")["text"], "milk")
        self.assertEqual(anna.client().query(lambda tx: tx.get("todo/x")["text"]), "milk")
        self.holds(lambda: seen[-1:] == [["todo/x"]])
        self.quiet(anna)
        bert.mutate.toggle({"id": "x"})
        self.holds(lambda: anna.query(lambda tx: tx.get("todo/x")["done"]))
        bert.mutate("rename", {"id": "x", "text": "oat milk"})
        self.holds(lambda: self.server.space.values()["todo/x"]["text"] == "oat milk")

    def test_refused_mutations_change_nothing(self) -> None:
        anna = self.rep(pusher=offline)
        anna.mutate.add(id="x", text="milk")
        before = rows(anna), anna.experimental_pending_mutations()
        for args, error in (({"id": "x", "text": "again"}, Refusal), ({"id": "y"}, KeyError)):
            with self.assertRaises(error) as told:
                anna.mutate.add(args)
            if error is Refusal:
                self.assertEqual((told.exception.why, told.exception.code), (Why.REFUSED, todo.HAS_IT))
        with self.assertRaises(Refusal) as told:
            anna.mutate.nothing()
        self.assertIs(told.exception.why, Why.NO_MUTATOR)
        with self.assertRaises(TypeError):
            anna.mutate.add({"id": "z"}, text="both")
        self.assertEqual(before, (rows(anna), anna.experimental_pending_mutations()))

    def test_a_transaction_is_called_alone(self) -> None:
        def nested(tx: Any, args: Any) -> None:
            anna.mutate.once("x")

        anna = self.rep(mutators={**todo.MUTATORS, "nested": nested}, pusher=offline)
        for call in (lambda: anna.mutate.nested(), lambda: anna.query(lambda tx: anna.mutate.once("x")),
                     lambda: anna.query(lambda tx: anna.query(lambda tx: 1))):
            with self.assertRaises(RuntimeError):
                call()
        anna.mutate.once("x")
        told = anna.query(lambda tx: (tx.get("n/x"), tx.is_empty(), tx.client_id))
        self.assertEqual(told, (1, False, anna.client_id))
        kept = anna.query(lambda tx: tx)
        with self.assertRaises(Refusal) as refused:
            kept.get("n/x")
        self.assertIs(refused.exception.why, Why.NOT_READ)

    def test_rows_that_are_set_together(self) -> None:
        def fill(tx: Any, args: Any) -> None:
            tx.set("a", 0)
            tx.set_all({"a": args, "b": None, "é": [args]})

        anna = self.rep(mutators={"fill": fill}, pusher=offline)
        told: list[Any] = []
        anna.subscribe(lambda tx: tx.get("é"), told.append)
        anna.mutate.fill(1)
        self.assertEqual(rows(anna), {"a": 1, "b": None, "é": [1]})
        self.holds(lambda: told[-1:] == [[1]])
        with self.assertRaises(Refusal) as refused:
            anna.mutate.fill(0.5)
        self.assertEqual((refused.exception.why, rows(anna)["a"]), (Why.NOT_WHOLE, 1))

    def test_clients(self) -> None:
        anna = self.rep(clients=2, pusher=offline)
        bert = anna.client()
        self.assertNotEqual(anna.client_id, bert.client_id)
        with self.assertRaises(ValueError):
            anna.client()
        bert.mutate.once("x")
        bert.leave()
        with self.assertRaises(Closed):
            bert.mutate.once("y")
        with self.assertRaises(Closed):
            bert.query(lambda tx: 1)
        carl = anna.client()
        carl.mutate.once("z")
        self.assertEqual([(one.client_id, one.id, one.name, one.args) for one in anna.experimental_pending_mutations()],
                         [(bert.client_id, 1, "once", "x"), (carl.client_id, 1, "once", "z")])

    def test_queries_are_of_one_moment(self) -> None:
        def both(tx: Any, n: int) -> None:
            tx.set("a", n)
            tx.set("b", n)

        def pulled(body: bytes, headers: dict[str, str]) -> Reply:
            cookie = (json.loads(body)["cookie"] or 0) + 1
            return applied(cookie, a=-cookie, b=-cookie)

        rules = {"both": [["put", "a", ["arg", 0]], ["put", "b", ["arg", 0]]]}
        for words in ({"mutators": {"both": both}}, {"rules": rules}):
            anna = self.rep(pusher=offline, puller=pulled, slots=1 << 18, **words)
            bert, asked, wrong = anna.client(), 0, 0

            def work() -> None:
                for n in range(2000):
                    anna.mutate("both", n if "mutators" in words else [n])
                    if n % 20 == 0:
                        anna.pull(now=True)

            thread = threading.Thread(target=work)
            thread.start()
            while thread.is_alive():
                a, b = bert.query(lambda tx: (tx.get("a"), tx.get("b")))
                asked, wrong = asked + 1, wrong + (a != b)
            self.assertEqual(wrong, 0)
            self.assertGreater(asked, 100)
            anna.close()

    def test_pulled_rows(self) -> None:
        anna = self.rep(pusher=offline, pull_interval=None)
        self.server.space.do("add", {"id": "x", "text": "milk"})
        anna.pull(now=True).result(5)
        told: list[Any] = []
        anna.subscribe(lambda tx: tx.pulled_get("todo/x"), told.append)
        anna.mutate.rename(id="x", text="mine")
        anna.mutate.add(id="y", text="tea")

        def both(tx: Any) -> Any:
            return [tx.get(key, {}).get("text") for key in ("todo/x", "todo/y")], dict(tx.pulled_scan("todo/"))

        row = self.server.space.values()["todo/x"]
        self.assertEqual(anna.query(both), (["mine", "tea"], {"todo/x": row}))
        self.server.space.do("rename", {"id": "x", "text": "theirs"})
        anna.pull(now=True).result(5)
        self.holds(lambda: told == [row, {**row, "text": "theirs"}])
        self.assertEqual(anna.query(both), (["mine", "tea"], {"todo/x": told[1]}))

    def test_a_query_keeps_no_change_waiting(self) -> None:
        asks, go_on = threading.Event(), threading.Event()

        def slow(tx: Any) -> Any:
            before = tx.get("counted")
            asks.set()
            go_on.wait(5)
            return before, tx.get("counted"), tx.has("todo/x")

        anna = self.rep(pusher=offline, pull_interval=None, slots=64)
        bert = anna.client()
        anna.pull(now=True).result(5)
        anna.mutate.once(0)
        told: list[Any] = []
        thread = threading.Thread(target=lambda: told.append(anna.query(slow)))
        thread.start()
        self.assertTrue(asks.wait(5))
        for number in range(100):  # the group grows meanwhile
            (anna if number % 2 else bert).mutate.once(number)
        self.server.space.do("add", {"id": "x", "text": "milk"})
        anna.pull(now=True).result(5)
        self.assertEqual((bert.query(lambda tx: tx.get("counted")), thread.is_alive()), (101, True))
        go_on.set()
        thread.join(5)
        self.assertEqual((told, anna.query(lambda tx: tx.has("todo/x"))), ([(1, 1, False)], True))

    def test_the_most_clients(self) -> None:
        with self.assertRaises(ValueError):
            self.rep(clients=groups.MOST_CLIENTS + 1, pusher=offline, puller=offline)
        anna = self.rep(clients=groups.MOST_CLIENTS, pusher=offline, puller=offline)
        clients = [anna, *(anna.client() for _ in range(groups.MOST_CLIENTS - 1))]
        clients[-1].mutate.once("x")
        for client in clients:
            self.assertEqual(client.query(lambda tx: (tx.get("counted"), tx.client_id)), (1, client.client_id))

    def test_close_ends_what_waits(self) -> None:
        anna = self.rep(pusher=offline, puller=offline)
        waiting = [anna.push(), anna.pull(), anna.poke()]
        threads = list(anna._shared._threads)
        anna.mutate.once("x")
        begun = time.monotonic()
        anna.close()
        self.assertLess(time.monotonic() - begun, 5.0)
        self.assertFalse([thread.name for thread in threads if thread.is_alive()])
        for future in [*waiting, anna.push()]:
            self.assertIsInstance(future.exception(1), Closed)
        for call in (lambda: anna.mutate.once("y"), lambda: anna.query(lambda tx: 1), anna.client):
            with self.assertRaises(Closed):
                call()
        anna.close()
        anna.leave()

    def test_close_breaks_a_stream_that_says_nothing(self) -> None:
        anna = self.rep(poke_url=self.server.url + "/poke")
        self.holds(lambda: anna._shared._others[0]._stream is not None)
        begun = time.monotonic()
        anna.close()
        self.assertLess(time.monotonic() - begun, 1.0)
        self.assertFalse(anna._shared._others[0].is_alive())


class Subscriptions(WithServer):
    """What is told, and what is not."""

    def test_a_query_runs_for_its_keys_alone(self) -> None:
        anna = self.rep()
        runs: list[int] = []
        told: list[Any] = []

        def query(tx: Any) -> Any:
            runs.append(1)
            return tx.get("todo/x")

        end = anna.subscribe(query, told.append)
        self.holds(lambda: told == [None])
        anna.pull(now=True).result(5)
        time.sleep(0.1)
        before = len(runs)
        for number in range(50):
            anna.mutate.once(number)
        self.quiet(anna)
        time.sleep(0.1)
        self.assertEqual(len(runs), before)
        anna.mutate.add(id="x", text="t")
        self.holds(lambda: len(told) == 2)
        self.quiet(anna)
        time.sleep(0.05)
        self.assertEqual(len(told), 2)  # the server's row is the same: nothing to tell
        end()
        anna.mutate.toggle(id="x")
        self.quiet(anna)
        self.assertEqual(len(told), 2)

    def test_an_unchanged_moment_costs_one_call(self) -> None:
        anna = self.rep(rules=todo.RULES, pusher=offline, puller=offline)
        told: list[Any] = []
        seen: list[Diff] = []
        for _ in range(3):
            anna.subscribe(lambda tx: [row.key for row in tx.scan()], told.append)
        anna.experimental_watch(seen.extend)
        self.holds(lambda: len(told) == 3 and not anna._shared.teller._new)
        place = anna._kept._place(playing.TELL)
        time.sleep(0.05)
        with mock.patch.object(place, "_call", wraps=place._call) as call:
            anna._shared.teller.changed(None)
            self.holds(lambda: call.call_count)
            time.sleep(0.05)
            self.assertEqual([one.args for one in call.call_args_list], [(edge._What.MOMENT,)])
        anna.mutate.add(id="x", text="t")
        self.holds(lambda: len(told) == 6 and len(seen) > 0)
        self.assertEqual({"todo/x" in one for one in told[3:]}, {True})

    def test_a_change_that_is_told_late(self) -> None:
        """A watch that has looked at some keys alone isn't at the moment at which it did, and tells nothing twice."""
        old = {f"{number:03}": 1 for number in range(200)}
        rows = dict(old)
        seen: list[tuple[str, str, Any]] = []
        answers = [
            (True, [Diff("add", key, None, value) for key, value in rows.items()]),
            Refusal(Why.NO_MEMORY),
            (False, [Diff("change", "000", 1, 2), Diff("change", "001", 1, 3), Diff("add", "x", None, [])]),
            (True, [Diff("add", key, None, value) for key, value in {**old, "000": 2, "001": 4}.items()]),
        ]
        changes = mock.Mock(side_effect=answers)

        def told(diffs: list[Diff]) -> None:
            seen.extend((diff.op, diff.key, diff.new_value) for diff in diffs)

        def ask(query: Any, reads: Any) -> Any:
            return query(mock.Mock(**{"get": rows.get, "has": rows.__contains__}))

        watch = subscriptions.Watch(told, "", mock.Mock(changes=changes), tells_first=False)
        watch.tell(ask, None, (1, 1))
        rows.update({"000": 2, "001": 2, "002": 2})
        watch.tell(ask, {"000"}, (1, 3))
        watch.tell(ask, {"001", "002"}, (1, 3))
        changed = [("change", "000", 2), ("change", "001", 2), ("change", "002", 2)]
        self.assertEqual((changes.call_count, seen), (1, changed))
        with contextlib.suppress(Refusal):
            watch.tell(ask, None, (1, 4))
        watch.tell(ask, {f"{number:03}" for number in range(5)}, (1, 4))  # so many that all are polled
        watch.tell(ask, None, (1, 4))
        watch.tell(ask, None, (2, 4))  # in a group that grew
        # What isn't polled of what was told is as it was.
        changed = [("change", "001", 3), ("change", "002", 1), ("add", "x", [])]
        self.assertEqual((changes.call_count, seen[3:6]), (4, changed))
        self.assertEqual(seen[6:], [("change", "001", 4), ("del", "x", None)])

    def test_what_a_rebase_takes_back_is_told(self) -> None:
        anna = self.rep(pusher=offline)
        told: list[Any] = []
        anna.pull(now=True).result(5)
        self.server.space.do("add", {"id": "x", "text": "theirs"})
        anna.mutate.add(id="x", text="mine")
        anna.subscribe(lambda tx: tx.get("todo/x")["text"], told.append)
        self.holds(lambda: told == ["mine"])
        anna.pull(now=True).result(5)
        self.holds(lambda: told == ["mine", "theirs"])

    def test_errors(self) -> None:
        anna = self.rep(pusher=offline, puller=offline)
        errors: list[Exception] = []
        told: list[Any] = []
        anna.subscribe(lambda tx: 1 // 0, told.append, on_error=errors.append)
        anna.subscribe(lambda tx: 1 // 0, told.append)  # goes to the log
        anna.subscribe(lambda tx: tx.get("n/x"), told.append, is_equal=lambda old, new: False)
        self.holds(lambda: told == [None] and isinstance(errors[0], ZeroDivisionError))
        anna.mutate.once("x")
        self.holds(lambda: told == [None, 1])

    def test_watch(self) -> None:
        for words in ({}, {"rules": todo.RULES, "pusher": offline, "puller": offline}):
            anna = self.rep(**words)
            got: list[Diff] = []
            late: list[Diff] = []
            anna.mutate.add(id="1", text="one")
            anna.experimental_watch(got.extend, prefix="todo/", initial_values_in_first_diff=True)
            self.holds(lambda: [(diff.op, diff.key) for diff in got] == [("add", "todo/1")])
            end = anna.experimental_watch(late.extend, prefix="todo/")
            self.holds(lambda: not anna._shared.teller._new)
            time.sleep(0.05)
            anna.mutate.rename(id="1", text="uno")
            self.holds(lambda: got[-1].op == "change" and late[-1:] == got[-1:])
            end()
            anna.mutate.remove(id="1")
            self.holds(lambda: got[-1].op == "del")
            self.assertIsNone(got[-1].new_value)
            self.assertEqual(len(late), 1)
            anna.close()

    def test_a_watch_of_a_group_that_grows(self) -> None:
        anna = self.rep(rules=todo.RULES, pusher=offline, puller=offline)
        got: list[Diff] = []
        for key in ("1", "2"):
            anna.mutate.add(id=key, text=key)
        end = anna.experimental_watch(got.extend, prefix="todo/", initial_values_in_first_diff=True)
        self.holds(lambda: [(diff.op, diff.key) for diff in got] == [("add", "todo/1"), ("add", "todo/2")])
        with anna._kept._lock:
            anna._kept._grow()
        anna.mutate.remove(id="1")
        self.holds(lambda: [(diff.op, diff.key) for diff in got[2:]] == [("del", "todo/1")])
        anna.mutate.rename(id="2", text="due")
        self.holds(lambda: [(diff.op, diff.key) for diff in got[3:]] == [("change", "todo/2")])
        place = anna._kept._place(playing.TELL)
        with mock.patch.object(place, "_call", wraps=place._call) as call:
            end()
            self.holds(lambda: [one.args[0] for one in call.call_args_list] == [edge._What.UNWATCH])

    def test_listeners(self) -> None:
        anna = self.rep(pusher=offline)
        told: list[int] = []
        end = anna.on_change(lambda: told.append(1))
        self.holds(lambda: told)
        anna.pull(now=True).result(5)
        before = len(told)
        anna.mutate.once("x")
        self.holds(lambda: len(told) > before)
        end()


class Requests(WithServer):
    """Pushes and pulls, and what answers lead to."""

    def test_offline_and_back(self) -> None:
        online: list[bool] = []
        anna, bert = self.rep(on_online_change=online.append), self.rep(pull_interval=0.05)
        self.holds(lambda: anna.online)
        self.server.is_down = True
        for number in range(20):
            anna.mutate.add(id=str(number), text="t")
        self.holds(lambda: not anna.online)
        self.assertEqual(len(anna.experimental_pending_mutations()), 20)
        self.server.is_down = False
        self.holds(lambda: rows(bert).get("todos") == 20)
        self.quiet(anna)
        self.assertEqual(online, [True, False, True])

    def test_sync_is_told(self) -> None:
        told: list[bool] = []
        anna = self.rep(on_sync=told.append)
        anna.mutate.once("x")
        self.quiet(anna)
        self.holds(lambda: told[-1:] == [False])
        self.assertEqual(told, [True, False] * (len(told) // 2))

    def test_other_credentials(self) -> None:
        asked: list[int] = []

        def auth() -> str:
            asked.append(1)
            return "new"

        self.server.auth = "new"
        anna = self.rep(auth="old", get_auth=auth)
        anna.mutate.once("x")
        anna.push(now=True).result(5)
        self.quiet(anna)
        self.assertIn(len(asked), (1, 2))  # the push's thread and the pull's may both meet it
        self.server.auth = "newer"
        errors: list[Exception] = []
        bert = self.rep(auth="old", get_auth=lambda: None, on_error=lambda what, error: errors.append(error))
        bert.mutate.once("y")
        self.holds(lambda: any(isinstance(error, Answered) and error.status == 401 for error in errors))

    def test_credentials_are_not_asked_for_ever(self) -> None:
        asked: list[int] = []

        def auth() -> str:
            asked.append(1)
            return "wrong"

        self.server.auth = "right"
        self.rep(get_auth=auth, request_options=RequestOptions(60.0, 60.0, 5.0))
        self.holds(lambda: asked)
        time.sleep(0.3)
        self.assertEqual(len(asked), 7)

    def test_update_needed(self) -> None:
        for version in ("push", "pull", "schema", None):
            said = {"error": "VersionNotSupported", **({"versionType": version} if version else {})}
            reply = Reply(200, json.dumps(said).encode())
            for words in ({"puller": lambda body, headers: reply}, {"pusher": lambda body, headers: reply}):
                told: list[Any] = []
                anna = self.rep(on_update_needed=told.append, **words)
                key = f"{version} {list(words)}"
                anna.mutate.once(key)
                self.holds(lambda: told == [UpdateNeeded("VersionNotSupported", version)])
                anna.mutate.once(key)
                self.assertEqual(anna.query(lambda tx: tx.get(f"n/{key}")), 2)
                anna.close()

    def test_client_state_not_found(self) -> None:
        told: list[int] = []
        anna = self.rep(on_client_state_not_found=lambda: told.append(1))
        anna.mutate.once("x")
        anna.pull(now=True).result(5)
        self.quiet(anna)
        self.server.space.forget(anna.client_group_id)
        anna.pull(now=True)
        self.holds(lambda: told == [1])
        with self.assertRaises(Closed):
            anna.mutate.once("y")
        self.assertEqual(anna.query(lambda tx: tx.get("n/x")), 1)

    def test_client_state_not_found_by_a_push(self) -> None:
        told: list[int] = []
        lost = Reply(200, b'{"error":"ClientStateNotFound"}')
        anna = self.rep(pusher=lambda body, headers: lost, on_client_state_not_found=lambda: told.append(1))
        anna.mutate.once("x")
        self.holds(lambda: told == [1])
        with self.assertRaises(Closed):
            anna.mutate.once("y")

    def test_wrong_answers_are_told_and_do_no_harm(self) -> None:
        deep = b"[" * 100_000
        bodies = [b"", b"nonsense", b"\xff\xfe", deep, b"[]", b"7", b'{"error":7}', b'{"cookie":0.5}',
                  b'{"cookie":1,"lastMutationIDChanges":{},"patch":[{"op":"put","key":"price","value":0.5}]}',
                  b'{"cookie":1,"lastMutationIDChanges":{"x":-1},"patch":[]}']
        replies = [Reply(200, body) for body in bodies] + [Reply(500, b""), Reply(204, b""), Reply(302, b"")]
        told: list[Any] = []
        left = list(replies)

        def puller(body: bytes, headers: dict[str, str]) -> Reply:
            return left.pop(0) if left else applied(1, a=1)

        anna = self.rep(puller=puller, pusher=offline, request_options=RequestOptions(0.001, 0.01, 5.0),
                        on_error=lambda what, error: told.append((what, error)))
        self.holds(lambda: rows(anna) == {"a": 1})
        self.assertEqual(len(told), len(replies))
        self.assertEqual({what for what, _ in told}, {"pull"})
        self.assertIn(Why.NOT_WHOLE, [error.why for _, error in told if isinstance(error, Refusal)])

    def test_answers_of_a_push_that_are_no_json(self) -> None:
        bodies = [b"", b"nonsense", b"[" * 100_000, b"[1]", b'"text"']
        anna = self.rep(pusher=lambda body, headers: Reply(200, bodies.pop() if bodies else b"{}"))
        for number in range(5):
            anna.mutate.once(number)
            anna.push(now=True).result(5)

    def test_a_response_is_bounded(self) -> None:
        for number in range(50):
            self.server.space.do("add", {"id": str(number), "text": "t" * 1000})
        errors: list[Exception] = []
        anna = self.rep(request_options=RequestOptions(0.01, 0.2, 5.0, max_bytes=20_000))
        with self.assertRaises(Offline) as told:
            anna._shared.syncer.post("pull", b'{"clientGroupID":"x","cookie":null}')
        self.assertIn("max_bytes", str(told.exception))
        self.assertEqual((rows(anna), errors), ({}, []))

    def test_a_response_that_drips_has_an_end(self) -> None:
        dripping = socket.create_server(("127.0.0.1", 0))
        self.addCleanup(dripping.close)

        def drip(connection: socket.socket) -> None:
            with contextlib.suppress(OSError):
                connection.recv(65536)
                for byte in b"HTTP/1.1 200 OK\r\ncontent-length: 1000\r\n\r\n" + b" " * 1000:
                    connection.send(bytes([byte]))
                    time.sleep(0.05)

        def serve() -> None:
            with contextlib.suppress(OSError):
                while True:
                    threading.Thread(target=drip, args=[dripping.accept()[0]], daemon=True).start()

        threading.Thread(target=serve, daemon=True).start()
        url = f"http://127.0.0.1:{dripping.getsockname()[1]}/pull"
        anna = self.rep(pull_url=url, request_options=RequestOptions(60.0, 60.0, timeout=0.3))
        anna.pull(now=True)
        with self.assertRaises(Offline) as told:
            anna._shared.syncer.post("pull", b"{}")
        self.assertIn("no whole response in 0.3 seconds", str(told.exception))

    def test_close_gives_requests_up(self) -> None:
        silent = socket.create_server(("127.0.0.1", 0))
        self.addCleanup(silent.close)
        anna = self.rep(pull_url=f"http://127.0.0.1:{silent.getsockname()[1]}/pull")
        threads = list(anna._shared._threads)
        time.sleep(0.05)
        begun = time.monotonic()
        with mock.patch.object(replicache, "JOIN", 0.2):
            anna.close()
        self.assertLess(time.monotonic() - begun, 5.0)
        self.assertFalse([thread.name for thread in threads if thread.is_alive()])

    def test_losses(self) -> None:
        self.server.lose, self.server.cut = 0.15, 0.1
        reps = [self.rep(pull_interval=0.1) for _ in range(3)]

        def work(rep: Any, name: int) -> None:
            for number in range(60):
                rep.mutate.once(f"{name}-{number}")
                time.sleep(0.002)

        threads = [threading.Thread(target=work, args=(rep, name)) for name, rep in enumerate(reps)]
        for thread in threads:
            thread.start()
        for thread in threads:
            thread.join()
        for rep in reps:
            self.holds(lambda: not rep.experimental_pending_mutations(), 30)
        values = self.server.space.values()
        self.holds(lambda: all(rows(rep) == values for rep in reps), 30)
        self.assertEqual(values["counted"], 180)
        self.assertEqual({value for key, value in values.items() if key.startswith("n/")}, {1})
        self.assertEqual(self.server.space.counts["gaps"], 0)

    def test_what_was_answered_is_not_sent_again(self) -> None:
        anna = self.rep(puller=offline)  # nothing is confirmed
        for number in range(100):
            anna.mutate.once(number)
            if number % 10 == 0:
                anna.push(now=True).result(5)
        anna.push(now=True).result(5)
        self.assertEqual(sum(len(body["mutations"]) for body in self.server.pushed), 100)
        self.assertIsNone(anna._kept.unpushed({anna.client_id: 100}))
        self.assertEqual(anna._kept.unpushed({anna.client_id: 40}), (40, (anna.client_id, 41)))

    def test_an_answered_push_that_was_lost_is_sent_again(self) -> None:
        lost: list[bytes] = []

        def pusher(body: bytes, headers: dict[str, str]) -> Reply:
            lost.append(body)
            if len(lost) > 1:
                self.server.space.push(json.loads(body))
            return Reply(200, b"{}")

        anna = self.rep(pusher=pusher)
        anna.pull(now=True).result(5)
        anna.mutate.once("x")
        self.quiet(anna)
        self.assertGreater(len(lost), 1)
        self.assertEqual(self.server.space.values()["n/x"], 1)

    def test_a_mutator_that_raises_in_a_rebase(self) -> None:
        errors: list[Any] = []
        anna = self.rep(pusher=offline, on_error=lambda what, error: errors.append((what, type(error))))
        self.server.space.do("add", {"id": "x", "text": "milk"})
        anna.pull(now=True).result(5)
        anna.mutate.fail(id="x", key="todo/x")
        anna.mutate.once("y")
        self.server.space.do("remove", {"id": "x"})
        anna.pull(now=True).result(5)
        self.assertEqual(rows(anna), {"todos": 0, "n/y": 1, "counted": 1})
        self.holds(lambda: ("mutator fail", TypeError) in errors)
        self.assertEqual(len(anna.experimental_pending_mutations()), 2)

    def test_a_rebase_is_not_put_off_for_ever(self) -> None:
        def slow(tx: Any, args: Any) -> None:
            tx.set("slow", args)
            if tx.reason == "rebase":
                time.sleep(0.002)

        anna = self.rep(mutators={**todo.MUTATORS, "slow": slow}, pusher=offline, pull_interval=None)
        anna.pull(now=True).result(5)
        for number in range(30):
            anna.mutate.slow(number)
        stop = threading.Event()

        def work() -> None:
            number = 0
            while not stop.is_set():
                number += 1
                clients[number % 3].mutate.once(number % 10)

        clients = [anna, anna.client(), anna.client()]
        threads = [threading.Thread(target=work) for _ in range(3)]
        for thread in threads:
            thread.start()
        self.server.space.do("add", {"id": "x", "text": "milk"})
        try:
            anna.pull(now=True).result(10)
        finally:
            stop.set()
            for thread in threads:
                thread.join()
        self.assertIn("todo/x", rows(anna))

    def test_an_interrupt_behind_a_change(self) -> None:
        anna = self.rep(pusher=offline, slots=64, store=self.store)
        anna.mutate.once("x")
        journal = anna._kept.journal
        with mock.patch.object(journal, "make", side_effect=[KeyboardInterrupt, None]) as make:
            with self.assertRaises(KeyboardInterrupt):
                anna.mutate.once("y")
            self.assertEqual(make.call_count, 2)
        journal.make(make.call_args_list[-1].args[0])
        self.assertEqual([one.args for one in anna.experimental_pending_mutations()], ["x", "y"])
        for number in range(100):
            anna.mutate.once(number)
        self.assertGreaterEqual(anna._kept.slots, 256)
        self.assertEqual([one.id for one in anna.experimental_pending_mutations()], list(range(1, 103)))

    def test_a_poster_that_raises(self) -> None:
        errors: list[Any] = []
        raises = [True, True]

        def pusher(body: bytes, headers: dict[str, str]) -> Reply:
            if raises:
                raises.pop()
                raise KeyError("on purpose")
            return Reply(200, json.dumps(self.server.space.push(json.loads(body))).encode())

        anna = self.rep(pusher=pusher, on_error=lambda what, error: errors.append((what, type(error))))
        anna.mutate.once("x")
        self.quiet(anna)
        self.assertEqual(errors, [("push", KeyError)] * 2)

    def test_a_push_that_waits_to_be_sent_again_keeps_nobody_waiting(self) -> None:
        anna = self.rep(pusher=lambda body, headers: self.sent(body))
        anna.mutate.once("x")
        self.holds(lambda: anna._shared.syncer._stalled)
        anna._shared.syncer.push_loop._due = time.monotonic() + 60
        before = len(self.bodies)
        anna.mutate.once("y")
        self.holds(lambda: len(self.bodies) > before, 1.0)

    bodies: list[bytes] = []

    def sent(self, body: bytes) -> Reply:
        """Answers a push, and forgets it."""
        self.bodies.append(body)
        return Reply(200, b"{}")

    def test_an_interval(self) -> None:
        anna, bert = self.rep(), self.rep(pull_interval=0.05)
        anna.mutate.once("x")
        self.holds(lambda: rows(bert).get("n/x") == 1)

    def test_one_request_at_a_time(self) -> None:
        running: list[int] = []
        most: list[int] = []

        def pusher(body: bytes, headers: dict[str, str]) -> Reply:
            running.append(1)
            most.append(len(running))
            time.sleep(0.02)
            running.pop()
            return Reply(200, b"{}")

        anna = self.rep(pusher=pusher, request_options=QUICK)
        done = []
        for number in range(100):
            anna.mutate.once(number)
            done.append(anna.push())
            time.sleep(0.001)
        for future in done:
            future.result(5)
        self.assertEqual(max(most), 1)
        self.assertLess(len(most), 20)
