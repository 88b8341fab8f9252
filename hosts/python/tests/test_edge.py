"""Each call of the wrapper, the refusals that a call can be brought to, and threads: `python3 -m unittest`."""

from __future__ import annotations

import ctypes
import dataclasses
import gc
import json
import re
import threading
import time
import unittest
from collections.abc import Callable
from pathlib import Path
from unittest import mock

from giqaymu import edge
from giqaymu.edge import (
    AskedRun,
    Del,
    Diff,
    Draft,
    Ended,
    Group,
    Json,
    Place,
    Put,
    Refusal,
    Refuse,
    Slots,
    Version,
    VersionKind,
    Why,
)

ID = "00000000-0000-4000-8000-000000000001"
ANNA = "00000000-0000-4000-8000-00000000000a"
BERT = "00000000-0000-4000-8000-00000000000b"
RULES = {"need": [["need", ["has", ["arg", 0]], 77]]}


def seated(slots: int = 1024) -> tuple[Place, Place]:
    """Two places of a group, and a client at each."""
    group = Group(ID, profile="p1", schema="s1", rules=RULES, slots=slots, places=2)
    anna, bert = group.places
    anna.sit(ANNA)
    bert.sit(BERT)
    return anna, bert


def put(key: str, value: Json) -> dict[str, Json]:
    """An operation of a patch."""
    return {"op": "put", "key": key, "value": value}


def response(cookie: Json, *patch: dict[str, Json], **ids: int) -> bytes:
    """The body of a response that confirms these ids of anna and bert."""
    changes = {{"anna": ANNA, "bert": BERT}[name]: last for name, last in ids.items()}
    return json.dumps({"cookie": cookie, "lastMutationIDChanges": changes, "patch": patch}).encode()


def pull(place: Place, body: bytes) -> Ended:
    """A pull whose response is this one."""
    return place.end_pull(place.begin_pull(), body)


class Calls(unittest.TestCase):
    """Each call."""

    def refused(self, why: Why, call, *args: Json, code: int = 0, **words: Json) -> None:
        """The call is refused so."""
        with self.assertRaises(Refusal) as told:
            call(*args, **words)
        self.assertEqual((told.exception.why, told.exception.code), (why, code))

    def test_queries(self) -> None:
        anna, bert = seated()
        self.assertIsNone(anna.cookie())
        body = response({"order": 1}, put("a/1", 1), put("a/2", "é"), put("b", None))
        self.assertIs(pull(anna, body), Ended.APPLIED)
        self.assertEqual(bert.cookie(), {"order": 1})
        self.assertEqual(bert.get("a/2"), "é")
        self.assertEqual((bert.get("a"), bert.get("a", 7), bert.get("b", 7)), (None, 7, None))
        self.assertEqual((bert.has("b"), bert.has(""), bert.closed()), (True, False, False))
        rows = [("a/1", 1), ("a/2", "é"), ("b", None)]
        self.assertEqual(bert.scan(), rows)
        self.assertEqual(bert.scan("a/"), rows[:2])
        self.assertEqual(bert.scan(at="a/2"), rows[1:])
        self.assertEqual(bert.scan(after="a/1", limit=1), rows[1:2])
        self.assertEqual(bert.scan(limit=0), [])
        self.assertEqual(bert.scan()[1].value, "é")
        for words in ({"at": "a", "after": "b"}, {"limit": -1}, {"limit": 2**64 - 1}):
            with self.assertRaises(ValueError):
                bert.scan(**words)

    def test_changes(self) -> None:
        anna, bert = seated()
        self.assertEqual(anna.mutate("set", ["n", 1], 5), 1)
        self.assertEqual(bert.mutate("incr", ["n", 2], 6), 1)
        self.assertEqual(anna.mutate("append", ["t", "x"]), 2)
        self.assertEqual(anna.get("n"), 3)
        self.assertEqual(bert.pending(), [(ANNA, 1, "set"), (BERT, 1, "incr"), (ANNA, 2, "append")])
        body = json.loads(bert.push())
        self.assertEqual([(m["clientID"], m["id"], m["args"]) for m in body["mutations"]],
                         [(ANNA, 1, ["n", 1]), (BERT, 1, ["n", 2]), (ANNA, 2, ["t", "x"])])
        self.assertEqual([m["timestamp"] for m in body["mutations"]][:2], [5, 6])
        for skip in (0, 1, 2, 3, 2**32 - 1):
            rest = {**body, "mutations": body["mutations"][skip:]}
            self.assertEqual(json.loads(anna.push(skip)), rest)
        for skip in (-1, 2**32):
            with self.assertRaises(ValueError):
                anna.push(skip)
        self.assertIs(pull(bert, response(1, put("n", 30), anna=1, bert=1)), Ended.APPLIED)
        self.assertIs(pull(bert, response(1)), Ended.SAME)
        self.assertEqual(anna.pending(), [(ANNA, 2, "append")])
        self.assertEqual(anna.scan(), [("n", 30), ("t", "x")])
        self.assertEqual(anna.refresh(), 2)

    def test_readings(self) -> None:
        anna, bert = seated()
        pull(anna, response(1, put("a", 1), put("b", 1)))
        anna.mutate("set", ["a", 2])
        rows, body, moment = bert.scan(), bert.push(), bert.moment()
        with anna.reading() as reading:
            bert.mutate("set", ["c", 1])
            pull(bert, response(2, put("a", 3), anna=1))
            self.assertEqual((reading.scan(), reading.moment()), (rows, moment))
            self.assertEqual((reading.get("a"), reading.get("c", 7), reading.has("c")), (2, 7, False))
            self.assertEqual((reading.pulled_scan(), reading.pulled_get("a")), ([("a", 1), ("b", 1)], 1))
            self.assertEqual((reading.pending(), reading.cookie()), ([(ANNA, 1, "set")], 1))
            self.assertEqual((reading.push(), reading.closed(), anna.get("a")), (body, False, 2))
            self.assertEqual(json.loads(reading.push(1))["mutations"], [])
            self.refused(Why.READS, anna.mutate, "set", ["a", 2])
            self.refused(Why.READS, anna.slots)
            with self.assertRaises(Refusal) as told, anna.reading():
                pass
            self.assertIs(told.exception.why, Why.READS)
        self.refused(Why.NOT_READ, reading.get, "a")
        self.assertEqual((anna.scan(), anna.cookie()), ([("a", 3), ("b", 1), ("c", 1)], 2))
        self.assertGreater(anna.moment(), moment)
        with anna.reading():
            anna.leave()
        self.refused(Why.NO_CLIENT, anna.get, "a")
        with bert.reading():
            bert.close()
        self.refused(Why.NO_PLACE, bert.get, "a")

    def test_a_reading_ends_where_it_raises(self) -> None:
        anna, _ = seated()
        with self.assertRaises(KeyError), anna.reading():
            raise KeyError
        self.assertEqual(anna.mutate("set", ["a", 1]), 1)

    def test_an_interrupt_behind_the_begin_of_a_reading(self) -> None:
        anna, _ = seated()
        call = anna._call

        def interrupted(what: edge._What) -> edge._Told:
            told = call(what)
            if what is edge._What.BEGIN_READ:
                raise KeyboardInterrupt
            return told

        with mock.patch.object(anna, "_call", interrupted), self.assertRaises(KeyboardInterrupt), anna.reading():
            pass
        self.assertEqual(anna.mutate("set", ["a", 1]), 1)
        thread = threading.Thread(target=anna.mutate, args=["set", ["a", 2]])
        thread.start()
        thread.join(5)
        self.assertEqual(anna.get("a"), 2)

    def test_moments(self) -> None:
        anna, bert = seated()
        first = anna.moment()
        self.refused(Why.REFUSED, anna.mutate, "need", ["a"], code=77)
        self.assertEqual((anna.moment(), bert.moment()), (first, first))
        anna.mutate("set", ["a", 1])
        second = bert.moment()
        pull(anna, response(1, put("a", 1), anna=1))
        third = bert.moment()
        self.assertIs(pull(anna, response(1)), Ended.SAME)
        self.assertEqual((bert.moment(), first < second < third), (third, True))

    def test_queries_tell_their_moment(self) -> None:
        anna, bert = seated()
        self.assertEqual((bert.read_at(), bert.get("a"), bert.read_at()), (0, None, bert.moment()))
        with bert.reading() as reading:
            anna.mutate("set", ["a", 1])
            now = anna.moment()
            self.assertEqual((anna.has("a"), anna.read_at(), reading.moment() < now), (True, now, True))
            for ask in (reading.pending, reading.push, reading.cookie, reading.scan, reading.pulled_scan):
                ask()
                self.assertEqual(reading.read_at(), reading.moment())
        bert.refresh()
        self.assertLess(bert.read_at(), now)
        self.assertEqual((bert.closed(), bert.read_at()), (False, now))

    def test_pulled_rows(self) -> None:
        anna, bert = seated()
        pull(anna, response(1, put("a/1", 1), put("a/2", "é"), put("b", None)))
        bert.mutate("set", ["a/2", 2])
        bert.mutate("set", ["c", 3])
        self.assertEqual((anna.get("a/2"), anna.pulled_get("a/2")), (2, "é"))
        self.assertEqual((anna.pulled_get("b", 7), anna.pulled_get("c", 7)), (None, 7))
        rows = [("a/1", 1), ("a/2", "é"), ("b", None)]
        self.assertEqual((anna.pulled_scan(), anna.pulled_scan("a/")), (rows, rows[:2]))
        self.assertEqual((anna.pulled_scan(at="a/2"), anna.pulled_scan(after="a/1", limit=1)), (rows[1:], rows[1:2]))

    def test_slots(self) -> None:
        anna, _ = seated(slots=64)
        # A quarter is reserved, and the group's two nodes have slots.
        self.assertEqual(anna.slots(), Slots(ordinary=46, all=62, retired=0))
        anna.mutate("set", ["n", 1])
        self.assertLess(anna.slots().ordinary, 46)
        anna.leave()
        self.refused(Why.NO_CLIENT, anna.slots)

    def test_watches(self) -> None:
        anna, bert = seated()
        everything, others = anna.watch(), anna.watch("b")
        self.assertEqual((anna.poll(everything), anna.poll(others)), ([], []))
        bert.mutate("set", ["a", 1])
        self.assertEqual(anna.poll(everything), [("a", 1)])
        self.assertEqual((anna.poll(everything), anna.poll(others)), (None, None))
        of_bert = bert.watch("a")
        self.refused(Why.NO_WATCH, bert.poll, everything)
        self.refused(Why.NO_WATCH, anna.poll, of_bert)
        self.assertEqual(bert.poll(of_bert), [("a", 1)])
        self.refused(Why.NO_WATCH, bert.unwatch, everything)
        anna.unwatch(everything)
        self.refused(Why.NO_WATCH, anna.unwatch, everything)
        self.refused(Why.NO_WATCH, anna.poll, everything)
        with anna.reading():
            self.refused(Why.READS, anna.poll, others)
            anna.unwatch(others)
        self.assertEqual(anna.poll(anna.watch("a")), [("a", 1)])

    def test_changes(self) -> None:
        anna, bert = seated()
        bert.mutate("set", ["a", 1])
        watch = anna.watch()
        self.assertEqual(anna.poll_changes(watch), [Diff("add", "a", None, 1)])
        self.assertIsNone(anna.poll_changes(watch))
        bert.mutate("set", ["a", None])
        bert.mutate("set", ["é", {"x": []}])
        changed = [Diff("change", "a", 1, None), Diff("add", "é", None, {"x": []})]
        self.assertEqual(anna.poll_changes(watch), changed)
        self.assertIsNone(anna.poll(watch))
        bert.mutate("del", ["a"])
        self.assertEqual(anna.poll_changes(watch), [Diff("del", "a", None, None)])
        bert.mutate("del", ["é"])
        self.assertEqual((anna.poll(watch), anna.poll_changes(watch)), ([], None))
        self.refused(Why.NO_WATCH, bert.poll_changes, watch)
        with anna.reading():
            self.refused(Why.READS, anna.poll_changes, watch)

    def test_refused_mutations(self) -> None:
        anna, bert = seated()
        self.refused(Why.NO_MUTATOR, anna.mutate, "nothing", [])
        self.refused(Why.REFUSED, anna.mutate, "need", ["a"], code=77)
        self.refused(Why.NOT_WHOLE, anna.mutate, "set", [0.5])
        deep: Json = 1
        for _ in range(125):
            deep = [deep]
        self.refused(Why.NOT_JSON, anna.mutate, "set", deep)
        bert.leave()
        bert.sit(ANNA)
        bert.mutate("set", ["a", 1])
        self.refused(Why.STALE, anna.mutate, "set", ["a", 2])
        self.assertEqual((anna.refresh(), anna.mutate("set", ["a", 2])), (1, 2))
        with self.assertRaises(ValueError):
            anna.mutate("set", ["a", float("nan")])
        with self.assertRaises(ValueError):
            anna.mutate("set", ["a", 1], -1)
        with self.assertRaisesRegex(TypeError, "args is to be bytes, and is str"):
            anna.mutate_json("set", '["a",1]')

    def test_full(self) -> None:
        anna, _ = seated(16)
        for number in range(1, 6):
            self.assertEqual(anna.mutate("set", ["a", number]), number)
        self.refused(Why.FULL, anna.mutate, "set", ["a", 6])

    def test_slots_of_refused_replays(self) -> None:
        still = ["need", ["same", ["get", "flag"], 0], 7]
        put_n = ["put", "n", ["arg", 0]]
        rules: Json = {"before": [still, put_n], "after": [put_n, still], "done": [put_n]}
        fill_by_replays(self, lambda: Group(ID, profile="p1", schema="s1", rules=rules, slots=64, places=1))

    def test_refused_pulls(self) -> None:
        anna, bert = seated()
        late = bert.begin_pull()
        pull(anna, response(5, put("n", 0), anna=3))
        self.refused(Why.OVERTAKEN, bert.end_pull, late, response(6, put("n", 1)))
        self.refused(Why.NOT_JSON, pull, anna, b"\xff")
        self.refused(Why.BAD_SHAPE, pull, anna, b"{}")
        self.refused(Why.NOT_WHOLE, pull, anna, response(0.5))
        self.refused(Why.COOKIE_WENT_BACK, pull, anna, response(4, put("n", 1)))
        self.refused(Why.COOKIE_NOT_NEW, pull, anna, response(5, put("n", 1)))
        self.refused(Why.ID_WENT_BACK, pull, anna, response(6, anna=2))
        body = b'{"error":"VersionNotSupported","versionType":"schema"}'
        self.refused(Why.VERSION_NOT_SUPPORTED, pull, anna, body, code=VersionKind.SCHEMA)
        ticket, of_bert = anna.begin_pull(), bert.begin_pull()
        for body in ("{}", bytearray(b"{}"), None):
            with self.assertRaisesRegex(TypeError, f"response is to be bytes, and is {type(body).__name__}"):
                anna.end_pull(ticket, body)
        self.refused(Why.NO_TICKET, bert.forget, ticket)
        self.refused(Why.NO_TICKET, anna.end_pull, of_bert, response(6))
        bert.forget(of_bert)
        anna.forget(ticket)
        self.refused(Why.NO_TICKET, anna.end_pull, ticket, response(6))
        self.refused(Why.STATE_NOT_FOUND, pull, anna, b'{"error":"ClientStateNotFound"}')
        self.assertTrue(bert.closed())
        self.refused(Why.CLOSED, bert.mutate, "set", ["a", 1])

    def test_sitting(self) -> None:
        (place,) = Group(ID, profile="p1", schema="s1").places
        self.refused(Why.NO_CLIENT, place.get, "a")
        self.refused(Why.BAD_UUID, place.sit, "anna")
        place.sit(ANNA)
        self.refused(Why.IN_USE, place.sit, BERT)
        ticket, watch = place.begin_pull(), place.watch()
        place.mutate("set", ["a", 1])
        place.leave()
        place.sit(BERT)
        self.assertTrue(place.has("a"))
        self.refused(Why.NO_TICKET, place.end_pull, ticket, response(1))
        self.refused(Why.NO_WATCH, place.poll, watch)

    def test_opening(self) -> None:
        words: dict[str, Json] = {"profile": "p1", "schema": "s1"}
        self.refused(Why.BAD_UUID, Group, "1", **words)
        self.refused(Why.OUT_OF_RANGE, Group, ID, slots=15, **words)
        self.refused(Why.OUT_OF_RANGE, Group, ID, places=0, **words)
        self.refused(Why.OUT_OF_RANGE, Group, ID, places=257, **words)
        self.refused(Why.BAD_RULES, Group, ID, rules={"a": [["fly"]]}, **words)
        self.assertEqual(len(Group(ID, places=256, **words).places), 256)
        for name in ("slots", "places"):
            with self.assertRaises(ValueError):
                Group(ID, **{name: 2**32}, **words)

    def test_faulty_rules(self) -> None:
        """What is wrong is told with its place, however long it is."""
        name = "é/" * 300
        for rules, fault in (
            ({"add": [["put", "k", ["adds", 1, 2]]]}, "/add/0/2: unknown word"),
            ({name: 1}, f"/{name.replace('/', '~1')}: no list of steps"),
            ([], "no JSON object"),
        ):
            with self.assertRaises(Refusal) as told:
                Group(ID, profile="p1", schema="s1", rules=rules)
            self.assertEqual((told.exception.why, told.exception.fault), (Why.BAD_RULES, fault))
            self.assertEqual(str(told.exception), f"BAD_RULES: the rules are faulty: {fault}")

    def test_fresh_ids(self) -> None:
        anna, bert = Group(ID, profile="p1", schema="s1", places=2).places
        first, second = anna.sit(), bert.sit()
        self.assertNotEqual(first, second)
        anna.mutate("set", ["a", 1])
        self.assertEqual(anna.pending(), [(first, 1, "set")])

    def test_closing(self) -> None:
        anna, bert = seated()
        anna.mutate("set", ["a", 1])
        anna.close()
        anna.close()
        self.refused(Why.NO_PLACE, anna.get, "a")
        self.assertEqual(bert.get("a"), 1)
        with Group(ID, profile="p1", schema="s1") as group:
            group.places[0].sit(ANNA)
        self.refused(Why.NO_PLACE, group.places[0].leave)
        del group, anna, bert
        gc.collect()


def fill_by_replays(case: unittest.TestCase, opened: Callable[[], Group]) -> None:
    """Ends a pull that leaves so many mutations pending as 64 slots are enough for, and one more: Full.

    48 of 64 slots are for a pull that leaves something pending. Before it a snapshot and a leaf take two, and so do its
    own. Each mutation takes two, and one more in the pull. The map after the replays takes one, if they change it.
    """
    for name, every in [(name, every) for name in ("before", "after") for every in (1, 2, 8)]:
        for pending in (14, 15):
            (anna,) = opened().places
            anna.sit(ANNA)
            pull(anna, response(1, put("flag", 0), put("n", 0)))
            for number in range(1, pending + 1):
                anna.mutate("done" if number % every else name, [number])
            if pending == 15:
                with case.assertRaises(Refusal) as told:
                    pull(anna, response(2, put("flag", 1)))
                case.assertIs(told.exception.why, Why.FULL)
                continue
            case.assertIs(pull(anna, response(2, put("flag", 1))), Ended.APPLIED)
            last = {1: 0, 2: 13, 8: 14}[every]
            case.assertEqual((anna.scan(), len(anna.pending())), ([("flag", 1), ("n", last)], 14))


def put_before(draft: Draft, args: Json) -> None:
    """Refuses where the flag isn't 0, before it writes."""
    if draft.get("flag") != 0:
        raise Refuse(7)
    put_n(draft, args)


def put_after(draft: Draft, args: Json) -> None:
    """Refuses where the flag isn't 0, after it wrote."""
    put_n(draft, args)
    if draft.get("flag") != 0:
        raise Refuse(7)


def put_n(draft: Draft, args: Json) -> None:
    """Puts the number."""
    assert isinstance(args, list)
    draft.put("n", args[0])


def note(draft: Draft, args: Json) -> None:
    """Puts the arguments behind what is at `n`, and says whether it was rebased."""
    draft.put("n", [*draft.get("n", []), args])
    draft.put("rebased", draft.rebase)


def take(draft: Draft, args: Json) -> None:
    """Takes away the key, which has to be there, and no other one with its beginning."""
    if not draft.has(args):
        raise Refuse(7)
    draft.delete(args)
    draft.put("left", [row.key for row in draft.scan(args)])


def fail(draft: Draft, args: Json) -> None:
    """Raises an error."""
    draft.put("n", 0)
    raise KeyError(args)


class OwnMutators(unittest.TestCase):
    """Mutators of the program's own."""

    def seated(self, **mutators: edge.Mutator) -> tuple[Place, Place]:
        """Two places, a client at each."""
        own = {"note": note, "take": take, "fail": fail, **mutators}
        anna, bert = Group(ID, profile="p1", schema="s1", mutators=own, slots=16384, places=2).places
        anna.sit(ANNA)
        bert.sit(BERT)
        return anna, bert

    refused = Calls.refused

    def test_mutations(self) -> None:
        anna, bert = self.seated()
        self.assertEqual((anna.mutate("note", 1), bert.mutate("note", {"a": "é"})), (1, 1))
        self.assertEqual(anna.scan(), [("n", [1, {"a": "é"}]), ("rebased", False)])
        self.refused(Why.NO_MUTATOR, anna.mutate, "set", ["a", 1])
        self.refused(Why.REFUSED, anna.mutate, "take", "x", code=7)
        self.assertEqual(anna.mutate("take", "n"), 2)
        self.assertEqual(anna.scan(), [("left", []), ("rebased", False)])

    def test_rebase(self) -> None:
        anna, bert = self.seated()
        anna.mutate("note", 1)
        anna.mutate("note", 2)
        bert.mutate("take", "rebased")
        self.assertIs(pull(anna, response(1, put("n", [0]), anna=1)), Ended.APPLIED)
        self.assertEqual(anna.scan(), [("left", []), ("n", [0, 2])])
        self.assertEqual(anna.pending(), [(ANNA, 2, "note"), (BERT, 1, "take")])
        self.assertIs(pull(anna, response(2, put("n", [0, 2]), {"op": "del", "key": "rebased"}, anna=2)), Ended.APPLIED)
        self.assertEqual(bert.scan(), [("n", [0, 2])])
        self.assertIs(pull(anna, response(3, put("n", []), bert=1)), Ended.APPLIED)
        self.assertIs(pull(anna, response(3)), Ended.SAME)
        self.assertEqual(bert.pending(), [])

    def test_writes(self) -> None:
        def fill(draft: Draft, args: Json) -> None:
            draft.put("old", 1)
            draft.write([Put("a", args), Put("b", 0), Put("b", ["é"]), Del("old"), Del("none")])
            draft.write(iter([]))
            self.refused(Why.NOT_WHOLE, draft.write, [Del("a"), Put("b", 0.5)])
            deep: Json = 1
            for _ in range(125):
                deep = [deep]
            self.refused(Why.NOT_JSON, draft.write, [Del("a"), Put("b", deep)])
            draft.write([Put("deep", deep[0])])

        anna, bert = self.seated(fill=fill)
        anna.mutate("fill", {"x": 1})
        self.assertEqual(bert.scan()[:2], [("a", {"x": 1}), ("b", ["é"])])
        self.assertEqual([row.key for row in bert.scan()], ["a", "b", "deep"])

    def test_errors(self) -> None:
        anna, bert = self.seated()
        with self.assertRaises(KeyError):
            anna.mutate("fail", 1)
        self.assertEqual((anna.scan(), anna.refresh(), anna.mutate("note", 1)), ([], 0, 1))
        drafts: list[Draft] = []
        anna, bert = self.seated(keep=lambda draft, args: drafts.append(draft), mean=lambda draft, args: anna.get("n"))
        anna.mutate("keep", 1)
        self.refused(Why.NOT_ASKED, drafts[0].get, "n")
        self.refused(Why.ASKS, anna.mutate, "mean", 1)
        self.assertEqual(anna.refresh(), 1)

    def test_a_run_is_told_in_one(self) -> None:
        runs: list[AskedRun] = []
        anna, bert = self.seated(log=lambda draft, args: runs.append(asking.asked_run()))
        asking = anna
        self.refused(Why.NOT_ASKED, anna.asked_run)
        anna.mutate("note", 1)
        anna.mutate("log", {"é": [1]}, 7)
        asking = bert
        pull(bert, response(1, anna=1))
        new = AskedRun("log", {"é": [1]}, "initial", client_id=ANNA, mutation_id=2, timestamp=7)
        self.assertEqual(runs, [new, dataclasses.replace(new, reason="rebase")])

    def test_others_are_first(self) -> None:
        runs = []

        def slow(draft: Draft, args: Json) -> None:
            runs.append(args)
            if len(runs) < 3:
                bert.mutate("note", len(runs))
            draft.put("slow", draft.get("n"))

        anna, bert = self.seated(slow=slow)
        self.assertEqual(anna.mutate("slow", 5), 1)
        self.assertEqual((runs, bert.get("slow")), ([5, 5, 5], [1, 2]))

    def test_threads(self) -> None:
        def count(draft: Draft, args: Json) -> None:
            draft.put("n", draft.get("n", 0) + args)

        anna, bert = self.seated(count=count)

        def work(place: Place) -> None:
            for _ in range(200):
                place.mutate("count", 1)

        threads = [threading.Thread(target=work, args=[place]) for place in (anna, bert, anna, bert)]
        for thread in threads:
            thread.start()
        for thread in threads:
            thread.join()
        self.assertEqual((anna.get("n"), anna.refresh(), bert.refresh()), (800, 400, 400))

    def test_slots(self) -> None:
        own = {"before": put_before, "after": put_after, "done": put_n}
        fill_by_replays(self, lambda: Group(ID, profile="p1", schema="s1", mutators=own, slots=64, places=1))

    def test_beside_rules(self) -> None:
        rules: dict[str, Json] = {"add": [["put", "r", ["add", ["or", ["get", "r"], 0], 1]]]}
        own = {"note": note, "take": take}
        anna, bert = Group(ID, profile="p1", schema="s1", rules=rules, mutators=own, places=2).places
        anna.sit(ANNA)
        bert.sit(BERT)
        self.assertEqual((anna.mutate("add", None), anna.mutate("note", 7), bert.mutate("add", None)), (1, 2, 1))
        self.refused(Why.NO_MUTATOR, anna.mutate, "set", ["a", 1])
        self.assertIs(pull(anna, response(1, put("r", 10))), Ended.APPLIED)
        self.assertEqual(bert.scan(), [("n", [7]), ("r", 12), ("rebased", True)])
        self.assertEqual(anna.mutate("take", "n"), 3)
        self.refused(Why.BAD_RULES, Group, ID, profile="p1", schema="s1", rules={"a": 1}, mutators=own)
        with self.assertRaisesRegex(ValueError, "one name: take"):
            Group(ID, profile="p1", schema="s1", rules={"take": []}, mutators=own)


class Threads(unittest.TestCase):
    """Places of one group, each on a thread of its own, and one place that threads share."""

    def increments(self, places: list[Place], count: int) -> None:
        """A thread for each of the places, which may be the same, makes so many mutations."""
        def work(place: Place) -> None:
            for _ in range(count):
                place.mutate("incr", ["n", 1])

        threads = [threading.Thread(target=work, args=[place]) for place in places]
        for thread in threads:
            thread.start()
        for thread in threads:
            thread.join()
        for place in places:
            self.assertEqual(place.get("n"), len(places) * count)

    def test_no_mutation_is_lost(self) -> None:
        places = Group(ID, profile="p1", schema="s1", slots=65536, places=4).places
        for number, place in enumerate(places):
            place.sit(ANNA[:-1] + str(number))
        pull(places[0], response(1, put("n", 0)))
        self.increments(places, 500)
        self.assertEqual([place.refresh() for place in places], [500] * 4)

    def test_readings_are_of_one_moment(self) -> None:
        rules: Json = {"both": [["put", "a", ["arg", 0]], ["put", "b", ["arg", 0]]]}
        anna, bert = Group(ID, profile="p1", schema="s1", rules=rules, slots=65536, places=2).places
        anna.sit(ANNA)
        bert.sit(BERT)
        stop = threading.Event()

        def work() -> None:
            number = 0
            while not stop.is_set():
                number += 1
                anna.mutate("both", [number])
                time.sleep(0)

        thread = threading.Thread(target=work)
        thread.start()
        moments = [0]
        while len(set(moments)) < 20:
            with bert.reading() as reading:
                moment, value = reading.moment(), reading.get("a")
                seen = moment, value, reading.get("b"), reading.moment()
            moments.append(moment)
            self.assertEqual(seen, (moment, value, value, moment))
        stop.set()
        thread.join()
        self.assertEqual(moments, sorted(moments))

    def test_a_reading_has_its_place(self) -> None:
        anna, _ = seated()
        with anna.reading() as reading:
            thread = threading.Thread(target=anna.mutate, args=["set", ["a", 1]])
            thread.start()
            thread.join(0.05)
            self.assertEqual((thread.is_alive(), reading.has("a")), (True, False))
        thread.join()
        self.assertTrue(anna.has("a"))

    def test_a_shared_place(self) -> None:
        anna, _ = seated(16384)
        pull(anna, response(1, put("n", 0)))
        self.increments([anna] * 4, 250)


class Numbers(unittest.TestCase):
    """The names and numbers are those of the header."""

    def test_header(self) -> None:
        header = Path(__file__).resolve().parents[3].joinpath("include", "giqaymu.h").read_text(encoding="utf-8")
        numbers = {name: int(number) for name, number in re.findall(r"\bGIQ_(\w+) = (-?\d+)", header)}
        self.assertEqual({why.name: why.value for why in Why}, {k: n for k, n in numbers.items() if n < 0})
        calls = {f"CALL_{what.name}": what.value for what in edge._What}
        self.assertEqual(calls, {k: n for k, n in numbers.items() if k.startswith("CALL_")})
        kinds = {f"{kind.name}_VERSION": kind.value for kind in VersionKind}
        self.assertEqual(kinds, {k: n for k, n in numbers.items() if k.endswith("_VERSION") and n >= 0})
        self.assertIn(f"#define GIQ_STACK {edge.STACK}\n", header)
        major, minor, patch, _ = edge.version()
        self.assertIn(f"#define GIQ_VERSION {10000 * major + 100 * minor + patch}\n", header)
        self.assertIn(f"#define GIQ_UNPROVED {edge._UNPROVED:#x}\n", header)

    def test_messages(self) -> None:
        self.assertEqual(Why.GONE.message, "a slot was given again while it was looked for: call again")
        self.assertEqual([why for why in Why if not why.message], [])

    def test_versions(self) -> None:
        """A library of another major or minor version is refused."""
        def loaded(number: int) -> None:
            library = mock.Mock(**{"giq_version.return_value": number})
            with mock.patch.object(ctypes, "CDLL", return_value=library):
                edge._library.__wrapped__()

        for number in (10200, 10299, edge._UNPROVED | 10200):
            loaded(number)
        for number in (10199, 10300, 20200, edge._UNPROVED | 10300):
            with self.assertRaises(Refusal) as told:
                loaded(number)
            self.assertEqual(told.exception.why, Why.BAD_VERSION)
        self.assertEqual(edge._version_of(edge._UNPROVED | 1020304), Version(102, 3, 4, proved=False))


if __name__ == "__main__":
    unittest.main()
