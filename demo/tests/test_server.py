"""The server, over SQLite and over PostgreSQL: what it answers, what it refuses, and what it does once."""

from __future__ import annotations

import contextlib
import http.client
import json
import shutil
import socket
import sqlite3
import tempfile
import threading
import time
import unittest
import urllib.error
import urllib.request
from collections.abc import Callable, Iterator
from pathlib import Path
from typing import Any

import giqaymu
import todo
from children import ServerChild
from own_postgres import OwnPostgres, lacks
from server.bodies import Mutation, Push
from server.databases import Counts, Database, Unavailable
from server.pokes import Pokes
from server.space import BATCH, Space
from server.sqlite import Sqlite
from server.transactions import Mutator, WriteTransaction
from server.web import Server

Json = Any

WAIT = 20.0


def uuid_of(number: int) -> str:
    return f"00000000-0000-4000-8000-{number:012}"


GROUP, OTHER_GROUP = uuid_of(1), uuid_of(2)
ANNA, BERT, CAROL = uuid_of(11), uuid_of(12), uuid_of(13)


def put(tx: WriteTransaction, args: Json) -> None:
    """Puts any value at any key: what a program's mutator may do, if nobody looks."""
    tx.set(args[0], args[1])


def put_and_refuse(tx: WriteTransaction, args: Json) -> None:
    """Refuses after it wrote."""
    tx.set("half", args)
    raise giqaymu.Refuse(1)


def take(tx: WriteTransaction, args: Json) -> None:
    tx.delete(args)


MUTATORS: dict[str, Mutator] = {**todo.MUTATORS, "put": put, "put_and_refuse": put_and_refuse, "take": take}


def mutation(number: int, name: str = "count", args: Json = None, client: str = ANNA) -> Json:
    return {"args": args, "clientID": client, "id": number, "name": name, "timestamp": 1.5}


def push_of(*mutations: Json, group: str = GROUP, **fields: Json) -> Json:
    versions = {"pushVersion": 1, "schemaVersion": "1"}
    return {"clientGroupID": group, "mutations": list(mutations), "profileID": "p", **versions, **fields}


def pull_of(cookie: Json, group: str = GROUP, **fields: Json) -> Json:
    versions = {"pullVersion": 1, "schemaVersion": "1"}
    return {"clientGroupID": group, "cookie": cookie, "profileID": "p", **versions, **fields}


def until(holds: Callable[[], bool]) -> bool:
    """Whether it holds within a while."""
    end = time.monotonic() + WAIT
    while not holds() and time.monotonic() < end:
        time.sleep(0.01)
    return holds()


class Served:
    """A server in this process."""

    def __init__(self, database: Callable[[Counts], Database], mutators: dict[str, Mutator], **options: Any) -> None:
        self.counts, self.pokes = Counts(), Pokes()
        self.database = database(self.counts)
        self.database.listen(self.pokes.poke)
        self.space = Space(self.database, mutators, self.counts)
        self.server = Server(self.space, self.pokes, self.counts, on_trial=True, **options)
        self.thread = threading.Thread(target=self.server.serve_forever, args=(0.01,), daemon=True)
        self.thread.start()

    def post(self, path: str, body: Json, **headers: str) -> tuple[int, Json]:
        data = body if isinstance(body, bytes) else json.dumps(body).encode()
        request = urllib.request.Request(self.server.address + path, data, headers)
        try:
            with urllib.request.urlopen(request, timeout=WAIT) as response:
                return response.status, json.load(response)
        except urllib.error.HTTPError as error:
            with error:
                return error.code, json.load(error)

    def close(self) -> None:
        self.pokes.end()
        self.server.shutdown()
        self.server.server_close()
        self.database.close()


class Reader:
    """A client group over the library, which reads what the server answers."""

    def __init__(self) -> None:
        self.group = giqaymu.Group(OTHER_GROUP, profile="p", schema="1", slots=4096)
        self.place = self.group.places[0]
        self.place.sit(CAROL)

    def pull(self, served: Served) -> dict[str, Json]:
        ticket = self.place.begin_pull()
        status, response = served.post("/pull", ticket.body)
        assert status == 200, response
        self.place.end_pull(ticket, json.dumps(response).encode())
        return dict(self.place.scan())


class Cases(unittest.TestCase):
    """What holds over each database."""

    served: Served

    def new_database(self) -> Callable[[Counts], Database]:
        """What opens a new database, each time the same one."""
        raise NotImplementedError

    def setUp(self) -> None:
        self.make = self.new_database()
        self.served = Served(self.make, MUTATORS)
        self.addCleanup(self.served.close)

    # ---- helpers

    def push(self, *mutations: Json, **fields: Json) -> Json:
        status, response = self.served.post("/push", push_of(*mutations, **fields))
        self.assertEqual(status, 200, response)
        return response

    def pull(self, cookie: Json = None, **fields: Json) -> Json:
        status, response = self.served.post("/pull", pull_of(cookie, **fields))
        self.assertEqual(status, 200, response)
        return response

    def rows(self) -> dict[str, Json]:
        return dict(self.served.space.report()["rows"])

    def refused(self, path: str, body: Json, says: str, status: int = 400) -> None:
        """The request is refused with what is wrong, and changes nothing."""
        before = self.served.space.report()
        told, response = self.served.post(path, body)
        self.assertEqual(told, status, response)
        self.assertIn(says, response["error"])
        after = self.served.space.report()
        self.assertEqual({**before, "counts": None}, {**after, "counts": None})

    # ---- push and pull

    def test_a_push_is_pulled(self) -> None:
        self.assertEqual(self.push(mutation(1, "add", {"id": "x", "text": "milk"}), mutation(2)), {})
        first = self.pull()
        self.assertEqual(first["lastMutationIDChanges"], {ANNA: 2})
        self.assertEqual(first["patch"][0], {"op": "clear"})
        todo_x = {"op": "put", "key": "todo/x", "value": {"at": 0, "done": False, "text": "milk"}}
        self.assertIn(todo_x, first["patch"])
        nothing = {"cookie": first["cookie"], "lastMutationIDChanges": {}, "patch": []}
        self.assertEqual(self.pull(first["cookie"]), nothing)
        self.push(mutation(3, "remove", {"id": "x"}))
        second = self.pull(first["cookie"])
        self.assertEqual(second["lastMutationIDChanges"], {ANNA: 3})
        self.assertIn({"op": "del", "key": "todo/x"}, second["patch"])
        self.assertEqual([op["op"] for op in self.pull(group=OTHER_GROUP)["patch"]], ["clear", "put", "put"])
        self.assertEqual(self.pull(group=OTHER_GROUP)["lastMutationIDChanges"], {})

    def test_a_refused_mutation_writes_nothing_and_counts_as_done(self) -> None:
        self.push(mutation(1, "put_and_refuse", 7), mutation(2, "no such name"), mutation(3, "add", 5), mutation(4))
        self.assertEqual(self.rows(), {"counted": 1})
        self.assertEqual(self.pull()["lastMutationIDChanges"], {ANNA: 4})

    def test_what_comes_again_is_done_once(self) -> None:
        self.push(mutation(1), mutation(2))
        self.push(mutation(1), mutation(2), mutation(3))
        self.push(mutation(2))
        self.assertEqual(self.rows(), {"counted": 3})

    def test_mutations_are_done_in_batches(self) -> None:
        many = [mutation(n, "put" if n == BATCH + 3 else "count", ["x", 0.5]) for n in range(1, 2 * BATCH + 51)]
        self.push(*many)
        self.assertEqual(self.rows(), {"counted": 2 * BATCH + 49})
        self.assertEqual(self.pull()["cookie"], 3)

    def test_a_push_that_does_not_fit_changes_nothing(self) -> None:
        self.push(mutation(1), mutation(1, client=BERT))
        beyond = [mutation(n) for n in range(2, BATCH + 10)]
        self.refused("/push", push_of(*beyond, mutation(3, client=BERT)), "has done 1 here, not yet 2")
        self.refused("/push", push_of(mutation(2), mutation(4)), "mutations[1].id is 4")
        self.refused("/push", push_of(mutation(2), mutation(2)), "mutations[1].id is 2")
        self.refused("/push", push_of(mutation(2, client=BERT), group=OTHER_GROUP), "of another group")

    def test_bad_bodies(self) -> None:
        one = mutation(1)
        bad = [
            (b"", "no JSON"), (b"\xff", "no JSON"), (b"[]", "no JSON object"), (b"[" * 200_000, "no JSON"),
            (b'{"a":NaN}', "no JSON"), (b'{"a":1' + b"0" * 9999 + b"}", "no JSON"),
            (push_of(one, clientGroupID=7), "clientGroupID"),
            (push_of(one, clientGroupID=GROUP + "\n"), "clientGroupID"),
            (push_of(one, profileID=None), "profileID"), (push_of(one, pushVersion="1"), "pushVersion"),
            (push_of(one, schemaVersion=1), "schemaVersion"), (push_of(one, mutations={}), "mutations"),
            (push_of(7), "mutations[0]"), (push_of({**one, "id": True}), "mutations[0].id"),
            (push_of({**one, "id": 1.0}), "mutations[0].id"), (push_of({**one, "id": 0}), "mutations[0].id"),
            (push_of({**one, "id": 2**60}), "mutations[0].id"),
            (push_of(one, {**one, "clientID": "x"}), "mutations[1].clientID"),
            (push_of({**one, "name": None}), "mutations[0].name"),
            (push_of({**one, "name": "n" * 999}), "mutations[0].name"),
            (push_of({**one, "timestamp": "1"}), "mutations[0].timestamp"),
            (push_of({"id": 1, "timestamp": 1}), "mutations[0].args"),
        ]
        for body, says in bad:
            with self.subTest(says=says, body=str(body)[:60]):
                self.refused("/push", body, says)
        for cookie in ("1", -1, 1.5, True, {"order": 1}, 2**70):
            self.refused("/pull", pull_of(cookie), "cookie")
        without = pull_of(None)
        del without["cookie"]
        self.refused("/pull", without, "cookie is missing")
        self.refused("/nowhere", {}, "there is no POST", status=404)
        self.assertEqual(self.push(one), {})

    def test_versions(self) -> None:
        error = "VersionNotSupported"
        self.assertEqual(self.push(pushVersion=0), {"error": error, "versionType": "push"})
        self.assertEqual(self.pull(pullVersion=2), {"error": error, "versionType": "pull"})
        self.assertEqual(self.push(mutation(1), schemaVersion="2"), {"error": error, "versionType": "schema"})
        self.assertEqual(self.pull(schemaVersion=""), {"error": error, "versionType": "schema"})
        self.assertEqual(self.rows(), {})

    def test_state_that_is_not_found(self) -> None:
        lost = {"error": "ClientStateNotFound"}
        self.assertEqual(self.pull(0), lost)
        self.assertEqual(self.push(mutation(2)), lost)
        self.push(mutation(1), mutation(2))
        cookie = self.pull()["cookie"]
        self.assertEqual(self.pull(cookie + 1), lost)
        self.served.post("/trial", {"forget": GROUP})
        self.assertEqual(self.pull(cookie), lost)
        self.assertEqual(self.push(mutation(3)), lost)
        self.assertEqual(self.rows(), {"counted": 2})

    # ---- what clients can read

    def test_what_a_client_cannot_read_is_not_stored(self) -> None:
        deep: Json = 1
        for _ in range(125):
            deep = [deep]
        wrong: list[Json] = [
            ["a", 0.5], ["b", 1.0], ["c", [1e300]], ["d", 2**64], ["e", -(2**63) - 1], ["f", deep], ["g", "\ud800"],
            ["h", {"\udfff": 1}], ["\ud800", 1], ["i\0", 1], ["k" * 1025, 1], ["l", "x" * (1 << 20)], [7, 1], [None, 1],
        ]
        right: list[Json] = [
            ["A", 2**64 - 1], ["B", -(2**63)], ["C", deep[0]], ["D", "\0\U0001f600\u2028"], ["é" * 512, None],
            ["", {"": []}],
        ]
        args = [pair for two in zip(wrong, right + wrong) for pair in two]
        self.push(*[mutation(n, "put", pair) for n, pair in enumerate(args, 1)])
        self.assertEqual(self.rows(), dict(right))
        self.assertEqual(Reader().pull(self.served), dict(right))

    def test_ids_that_a_client_cannot_read_are_no_ids(self) -> None:
        self.refused("/push", push_of(mutation(1, client="\ud800")), "clientID")
        self.refused("/push", push_of(mutation(1, client=ANNA.upper().replace("0", "A"))), "clientID")

    def test_arguments_of_any_kind_stop_nobody(self) -> None:
        kinds: list[Json] = [
            None, True, 7, "x", [], [1], {}, {"id": []}, {"id": "x"}, {"id": "x", "text": 0.5}, ["note/x"], [{}, {}],
            {"id": "\ud800", "text": ""}, ["log/x", None],
        ]
        n = 0
        for name in MUTATORS:
            for args in kinds:
                n += 1
                self.push(mutation(n, name, args))
        self.push(mutation(1, "add", {"id": "x", "text": "milk"}, client=BERT))
        self.assertIn("todo/x", Reader().pull(self.served))

    def test_rows_never_are_more_than_a_client_takes(self) -> None:
        space = Space(self.served.database, MUTATORS, Counts(), most_bytes=1000)

        def does(number: int, name: str, args: Json) -> int:
            space.push(Push(GROUP, [Mutation(ANNA, number, name, args)]))
            return len(json.dumps(self.pull()["patch"], ensure_ascii=False, separators=(",", ":")))

        sizes = [does(n, "put", [f"\1{n}", "x" * 100]) for n in range(1, 11)]
        self.assertLess(max(sizes), 1000 + len('[{"op":"clear"},]'))
        self.assertEqual(len(self.rows()), 6)
        does(11, "put", ["\0011", "x" * 200])
        self.assertEqual(self.rows()["\0011"], "x" * 200)
        does(12, "put", ["\0011", "x" * 300])
        self.assertEqual(self.rows()["\0011"], "x" * 200)
        does(13, "take", "\0011")
        does(14, "put", ["\0011", ""])
        self.assertEqual(self.rows()["\0011"], "")
        self.assertEqual(self.pull()["lastMutationIDChanges"], {ANNA: 14})

    # ---- at the same time

    def test_the_same_push_twice_at_once_is_done_once(self) -> None:
        done = push_twice_at_once(self.make)
        self.assertEqual(done, 1)

    def test_pushes_at_once_are_all_done(self) -> None:
        clients = [uuid_of(50 + n) for n in range(6)]

        def work(client: str) -> None:
            for n in range(1, 11):
                self.served.post("/push", push_of(mutation(n, client=client)))

        threads = [threading.Thread(target=work, args=(client,)) for client in clients for _ in range(2)]
        for thread in threads:
            thread.start()
        for thread in threads:
            thread.join(WAIT)
        self.assertEqual(self.rows(), {"counted": 60})
        self.assertEqual(self.pull()["lastMutationIDChanges"], dict.fromkeys(clients, 10))

    # ---- pokes

    @contextlib.contextmanager
    def stream(self, served: Served) -> Iterator[Callable[[], str]]:
        """What reads the next line of a stream that is not empty."""
        with urllib.request.urlopen(served.server.address + "/poke", timeout=WAIT) as response:
            self.assertEqual(response.headers["content-type"], "text/event-stream")

            def line() -> str:
                text = ""
                while not text:
                    text = str(response.readline(), "utf-8").strip()
                return text

            yield line

    def test_pokes(self) -> None:
        with self.stream(self.served) as line:
            self.assertEqual(line(), "data: 0")
            self.push(mutation(1))
            while (said := line()) != "data: 1":
                self.assertEqual(said, ": still here")
            self.push(mutation(1))
            self.push(mutation(2))
            while (said := line()) != "data: 2":
                self.assertEqual(said, ": still here")

    # ---- HTTP

    def test_authorization(self) -> None:
        served = Served(self.make, MUTATORS, authorization="Bearer x")
        self.addCleanup(served.close)
        self.assertEqual(served.post("/push", push_of(mutation(1)))[0], 401)
        self.assertEqual(served.post("/pull", pull_of(None), authorization="Bearer y")[0], 401)
        self.assertEqual(served.post("/push", push_of(mutation(1)), authorization="Bearer x"), (200, {}))
        self.assertEqual(self.rows(), {"counted": 1})

    def raw(self, request: bytes) -> bytes:
        """What comes back for these bytes."""
        port = self.served.server.server_address[1]
        with socket.create_connection(("127.0.0.1", port), timeout=WAIT) as connection:
            connection.sendall(request)
            connection.shutdown(socket.SHUT_WR)
            return b"".join(iter(lambda: connection.recv(65536), b""))

    def test_requests_that_are_none(self) -> None:
        for head, status in [
            (b"POST /push HTTP/1.1\r\n\r\n", b" 411 "),
            (b"POST /push HTTP/1.1\r\ncontent-length: -1\r\n\r\n", b" 411 "),
            (b"POST /push HTTP/1.1\r\ncontent-length: 2\r\ncontent-length: 2\r\n\r\n{}", b" 411 "),
            (b"POST /push HTTP/1.1\r\ncontent-length: 2\r\ntransfer-encoding: chunked\r\n\r\n{}", b" 411 "),
            (b"POST /push HTTP/1.1\r\ncontent-length: 99999999999\r\n\r\n", b" 413 "),
            (b"POST /push HTTP/1.1\r\ncontent-length: 9\r\n\r\n{}", b" 408 "), (b"BREW / HTTP/1.1\r\n\r\n", b" 501 "),
            (b"POST /trial HTTP/1.1\r\ncontent-length: 11\r\n\r\n{\"lose\": 2}", b" 400 "),
            (b"\x00\xff\r\n\r\n", b"400"),
        ]:
            with self.subTest(head=head):
                self.assertIn(status, self.raw(head).partition(b"\r\n")[0] + b" ")
        self.push(mutation(1))

    def test_losses(self) -> None:
        def lost() -> bool:
            try:
                self.served.post("/push", push_of(mutation(1)))
            except (OSError, http.client.HTTPException):
                return True
            return False

        self.served.post("/trial", {"down": True})
        self.assertTrue(lost())
        self.served.post("/trial", {"down": False, "cut": 1.0})
        self.assertTrue(lost())
        self.served.post("/trial", {"cut": 0.0})
        self.push(mutation(1))
        self.assertEqual(self.rows(), {"counted": 1})


def push_twice_at_once(make: Callable[[Counts], Database]) -> int:
    """Does a push on two threads, of which the second begins while the first runs its mutator: how often it is done."""
    inside, go_on = threading.Event(), threading.Event()

    def waits(tx: WriteTransaction, args: Json) -> None:
        first = not inside.is_set()
        inside.set()
        if first:
            go_on.wait(WAIT)
        tx.set("done", tx.get("done", 0) + 1)

    databases = [make(Counts()) for _ in range(2)]
    push = Push(GROUP, [Mutation(ANNA, 1, "waits", None)])
    spaces = [Space(database, {"waits": waits}, Counts()) for database in databases]
    threads = [threading.Thread(target=space.push, args=(push,)) for space in spaces]
    try:
        threads[0].start()
        inside.wait(WAIT)
        threads[1].start()
        time.sleep(0.5)  # by then it waits for the first one
        go_on.set()
        for thread in threads:
            thread.join(WAIT)
        return int(dict(Space(databases[0], {}, Counts()).report()["rows"])["done"])
    finally:
        for database in databases:
            database.close()


class OverSqlite(Cases):
    """A file."""

    def new_database(self) -> Callable[[Counts], Database]:
        room = tempfile.mkdtemp()
        self.addCleanup(shutil.rmtree, room)
        self.file = Path(room) / "rows.db"
        return lambda counts: Sqlite(self.file)

    def test_a_file_that_is_none(self) -> None:
        other = self.file.with_name("other")
        other.write_bytes(b"no database" * 100)
        with self.assertRaises(Unavailable):
            Sqlite(other)
        with self.assertRaises(Unavailable):
            Sqlite(self.file.with_name("no") / "folder")

    def test_a_file_that_is_locked_is_a_503(self) -> None:
        class Hasty(Sqlite):
            patience = 0.2

        served = Served(lambda counts: Hasty(self.file), MUTATORS)
        self.addCleanup(served.close)
        with contextlib.closing(sqlite3.connect(self.file, isolation_level=None)) as other:
            other.execute("begin immediate")
            self.assertEqual(served.post("/push", push_of(mutation(1)))[0], 503)
            self.assertEqual(served.post("/pull", pull_of(None))[0], 503)
            other.execute("rollback")
        self.assertEqual(served.post("/push", push_of(mutation(1))), (200, {}))


class OverPostgres(Cases):
    """A database of a PostgreSQL of its own."""

    postgres: OwnPostgres

    @classmethod
    def setUpClass(cls) -> None:
        if (lacking := lacks()) is not None:
            raise unittest.SkipTest(f"there is no {lacking}")
        cls.postgres = OwnPostgres()

    @classmethod
    def tearDownClass(cls) -> None:
        cls.postgres.close()

    def new_database(self) -> Callable[[Counts], Database]:
        from server.postgres import Postgres

        self.url = self.postgres.new_database()
        return lambda counts: Postgres(self.url, counts)

    def kill_backends(self) -> int:
        """Kills all connections to the database: how many."""
        name = self.url.partition("///")[2].partition("?")[0]
        statement = f"select pg_terminate_backend(pid) from pg_stat_activity where datname = '{name}'"
        return len(self.postgres.statement(statement))

    def test_a_database_of_another_encoding(self) -> None:
        from server.postgres import Postgres

        self.postgres.statement("create database latin template template0 encoding 'LATIN1' locale 'C'")
        with self.assertRaisesRegex(Unavailable, "UTF8"):
            Postgres(self.postgres.url("latin"), Counts())

    def test_the_obvious_port_does_it_twice(self) -> None:
        """The test of the test above: what PostgreSQL does by default."""
        from server.postgres import Postgres

        class ReadCommitted(Postgres):
            begin_writing = ("begin",)

        self.assertEqual(push_twice_at_once(lambda counts: ReadCommitted(self.url, counts)), 2)

    def test_without_the_lock_it_is_done_once_too(self) -> None:
        from server.postgres import Postgres

        class Unlocked(Postgres):
            begin_writing = Postgres.begin_writing[:1]

        self.assertEqual(push_twice_at_once(lambda counts: Unlocked(self.url, counts)), 1)

    def test_connections_that_break(self) -> None:
        self.push(mutation(1))
        self.assertGreater(self.kill_backends(), 0)
        self.push(mutation(2))
        self.assertEqual(self.pull()["lastMutationIDChanges"], {ANNA: 2})
        self.assertEqual(self.rows(), {"counted": 2})

    def test_two_servers_over_one_database(self) -> None:
        other = Served(self.make, MUTATORS)
        self.addCleanup(other.close)
        with self.stream(other) as line:
            self.assertEqual(line(), "data: 0")
            for number in (1, 2):
                self.push(mutation(number))
                while (said := line()) != f"data: {number}":
                    self.assertEqual(said, ": still here")
                self.kill_backends()  # of the listeners too: what is missed meanwhile is told
        self.assertEqual(dict(other.space.report()["rows"]), {"counted": 2})

    def test_a_database_that_is_not_there_is_a_503(self) -> None:
        from server.postgres import Postgres

        class Hasty(Postgres):
            patience = 0.2

        served = Served(lambda counts: Hasty(self.url, counts), MUTATORS)
        self.addCleanup(served.close)
        name = self.url.partition("///")[2].partition("?")[0]
        self.postgres.statement(f"alter database {name} allow_connections false")
        self.kill_backends()
        self.assertEqual(served.post("/push", push_of(mutation(1)))[0], 503)
        self.postgres.statement(f"alter database {name} allow_connections true")
        self.assertEqual(served.post("/push", push_of(mutation(1))), (200, {}))


del Cases  # its cases are run by the two classes


class Restarts(unittest.TestCase):
    """A server that is killed (SIGKILL) begins again on its file and its port."""

    def run_on(self, database: str | Path) -> None:
        acknowledged, port = 0, 0
        for _ in range(4):
            child = ServerChild(database, port)
            port = child.port
            killer = threading.Timer(0.15, child.process.kill)
            killer.start()
            try:
                while True:
                    status, answer = child.post("/push", push_of(*[mutation(acknowledged + n) for n in range(1, 4)]))
                    self.assertEqual((status, answer), (200, {}))
                    acknowledged += 3
            except (OSError, http.client.HTTPException):  # it may die in the middle of an answer
                child.kill()
        child = ServerChild(database, port)
        self.addCleanup(child.close)
        report = child.report()
        self.assertGreater(acknowledged, 0)
        self.assertGreaterEqual(report["clients"][ANNA], acknowledged)
        self.assertEqual(dict(report["rows"])["counted"], report["clients"][ANNA])
        self.assertEqual(child.port, port)

    def test_over_sqlite(self) -> None:
        with tempfile.TemporaryDirectory() as room:
            self.run_on(Path(room) / "rows.db")
            self.doCleanups()

    def test_over_postgres(self) -> None:
        if (lacking := lacks()) is not None:
            self.skipTest(f"there is no {lacking}")
        with OwnPostgres() as postgres:
            self.run_on(postgres.new_database())
            self.doCleanups()


if __name__ == "__main__":
    unittest.main()
