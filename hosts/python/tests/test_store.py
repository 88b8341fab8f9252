"""Groups that outlive their process: restored, recovered, set aside; a full disk, torn lines, a disk that refuses."""

from __future__ import annotations

import fcntl
import json
import os
import resource
import shutil
import subprocess
import sys
import threading
from pathlib import Path
from typing import Any
from unittest import mock

import todo
from giqaymu import Closed, NotSafe, Offline, Poster, Refusal, Replicache, Reply, SetAside, store
from giqaymu.edge import json_bytes
from giqaymu.store import left_behind
from support import WithServer, rows

HERE = Path(__file__).resolve().parent


def offline(body: bytes, headers: dict[str, str]) -> Reply:
    """A poster that reaches nobody."""
    raise Offline("on purpose")


def pending(rep: Replicache) -> list[Any]:
    """What is pending, as the library has it."""
    mutations = json.loads(rep._kept.push_body())["mutations"]
    told = [(one.client_id, one.id, one.name, one.args) for one in rep.experimental_pending_mutations()]
    assert told == [(one["clientID"], one["id"], one["name"], one["args"]) for one in mutations], (told, mutations)
    return told


def what(rep: Replicache) -> Any:
    """All that a group is."""
    return rows(rep), pending(rep), rep._kept._place(0).cookie(), rep.client_group_id


class Restored(WithServer):
    """A group that is opened again."""

    def test_it_is_what_it_was_with_the_server_down(self) -> None:
        for number in range(30):
            self.server.space.do("add", {"id": f"{number:02}", "text": "there"})
        anna = self.rep(store=self.store, pusher=offline)
        bert = anna.client()
        anna.pull(now=True).result(5)
        anna.mutate.add(id="new", text="one")
        bert.mutate.toggle(id="05")
        anna.mutate.rename(id="new", text="uno")
        bert.mutate.remove(id="06")
        before = what(anna)
        anna.close()
        self.server.is_down = True
        for _ in range(3):
            again = self.rep(store=self.store)
            self.assertEqual(what(again), before)
            again.mutate.once("x")
            self.assertEqual(again.experimental_pending_mutations()[-1][:2], (again.client_id, 1))
            before = what(again)
            again.close()
        self.server.is_down = False
        again = self.rep(store=self.store)
        self.quiet(again)
        self.holds(lambda: rows(again) == self.server.space.values())
        self.assertEqual(rows(again)["n/x"], 3)
        self.assertEqual(self.server.space.counts["seen"], 0)

    def test_before_anything_was_pulled(self) -> None:
        anna = self.rep(store=self.store, pusher=offline, puller=offline)
        anna.mutate.once("x")
        before = what(anna)
        anna.close()
        again = self.rep(store=self.store, pusher=offline, puller=offline)
        self.assertEqual(what(again), before)
        again.close()
        again = self.rep(store=self.store)
        self.quiet(again)
        self.assertEqual(rows(again), {"n/x": 1, "counted": 1})

    def test_a_mutation_that_refuses_by_now(self) -> None:
        anna = self.rep(store=self.store, pusher=offline, pull_interval=None)
        anna.pull(now=True).result(5)
        anna.mutate.add(id="x", text="mine")
        anna.mutate.toggle(id="x")
        anna.mutate.fail(id="x", key="todo/x")
        anna.mutate.add(id="y", text="y")
        self.server.space.do("add", {"id": "x", "text": "theirs"})
        anna.pull(now=True).result(5)
        before = what(anna)
        self.assertEqual(before[0]["todo/x"]["text"], "theirs")
        anna.close()
        again = self.rep(store=self.store, pusher=offline, puller=offline)
        self.assertEqual(what(again), before)
        again.close()
        again = self.rep(store=self.store)
        self.quiet(again)
        self.holds(lambda: rows(again) == self.server.space.values())

    def test_a_mutator_that_is_gone(self) -> None:
        anna = self.rep(store=self.store, pusher=offline)
        anna.mutate.once("x")
        anna.mutate.add(id="y", text="t")
        before = pending(anna)
        anna.close()
        again = self.rep(store=self.store, mutators={"add": todo.add})
        self.assertEqual(before, pending(again)[:2] or before)
        self.quiet(again)
        self.holds(lambda: rows(again) == self.server.space.values())
        self.assertEqual(rows(again)["n/x"], 1)

    def test_rules_are_played_as_they_were_written(self) -> None:
        self.server.space.mutators = todo.RULES_AT_SERVER
        anna = self.rep(rules=todo.RULES, store=self.store, pusher=offline, pull_interval=None)
        anna.pull(now=True).result(5)
        anna.mutate.add(id="x", text="mine")
        self.server.space.do("add", {"id": "y", "text": "theirs"})
        anna.pull(now=True).result(5)
        anna.mutate.rename(id="y", text="ours")  # could not be done before that pull
        anna.mutate.rename(id="x", text="mine too")
        self.server.space.do("add", {"id": "x", "text": "theirs"})
        self.server.space.do("remove", {"id": "y"})
        anna.pull(now=True).result(5)  # both refuse by now
        before = what(anna)
        self.assertEqual(before[0], {"todo/x": "mine too"})
        self.assertEqual(len(before[1]), 3)
        anna.close()
        for _ in range(2):
            again = self.rep(rules=todo.RULES, store=self.store, pusher=offline, puller=offline)
            self.assertEqual(what(again), before)
            again.close()
        again = self.rep(rules=todo.RULES, store=self.store)
        self.quiet(again)
        self.holds(lambda: rows(again) == self.server.space.values())
        again.close()
        again = self.rep(rules=todo.RULES, store=self.store, pusher=offline, puller=offline)
        self.assertEqual(rows(again), self.server.space.values())

    def test_rules_that_are_others(self) -> None:
        self.server.space.mutators = todo.RULES_AT_SERVER
        anna = self.rep(rules=todo.RULES, store=self.store, pusher=offline)
        anna.mutate.add(id="x", text="mine")
        group = anna.client_group_id
        anna.close()
        errors: list[Any] = []
        others = {"rename": todo.RULES["rename"]}
        again = self.rep(rules=others, store=self.store, on_error=lambda what, error: errors.append(what))
        self.assertNotEqual(again.client_group_id, group)
        self.holds(lambda: rows(again) == {"todo/x": "mine"})  # it was recovered
        self.assertEqual(errors, ["store"])

    def test_a_file_that_is_written_anew(self) -> None:
        with mock.patch.object(store, "LONG", 2000):
            anna = self.rep(store=self.store, pull_interval=None, durability="write")
            for number in range(300):
                anna.mutate.once(number % 10)
                if number % 20 == 0:
                    anna.push(now=True).result(5)
                    anna.pull(now=True).result(5)
            self.quiet(anna)
            size = (self.store / f"{anna.client_group_id}.journal").stat().st_size
            self.assertLess(size, 20_000)
            self.assertFalse(list(self.store.glob("*.new")))
            before = what(anna)
        anna.close()
        self.assertEqual(what(self.rep(store=self.store, pusher=offline, puller=offline)), before)

    def test_ids_of_clients_that_are_gone_are_forgotten(self) -> None:
        for _ in range(5):
            anna = self.rep(store=self.store)
            anna.mutate.once("x")
            self.quiet(anna)
            anna.close()
        again = self.rep(store=self.store)
        self.assertEqual(rows(again)["n/x"], 5)
        self.assertLessEqual(len(again._kept.journal.state.confirmed), 1)

    def test_other_schemas_and_profiles(self) -> None:
        anna = self.rep(store=self.store, schema_version="1", pusher=offline)
        anna.mutate.once("x")
        group = anna.client_group_id
        anna.close()
        for words in ({"schema_version": "2"}, {"schema_version": "1", "profile_id": "another"}):
            again = self.rep(store=self.store, pusher=offline, puller=offline, **words)
            self.assertNotEqual(again.client_group_id, group)
            again.close()
        again = self.rep(store=self.store, schema_version="1", pusher=offline, puller=offline)
        self.assertEqual(again.client_group_id, group)


class Recovered(WithServer):
    """Groups that no process holds."""

    def test_they_are_sent_and_go(self) -> None:
        first, second = (self.rep(store=self.store, pusher=offline, puller=offline) for _ in range(2))
        self.assertNotEqual(first.client_group_id, second.client_group_id)
        for number in range(10):
            first.mutate.once(f"first {number}")
            second.mutate.once(f"second {number}")
        first.close()
        second.close()
        self.assertEqual(len(list(self.store.glob("*.journal"))), 2)
        again = self.rep(store=self.store)
        self.holds(lambda: rows(again).get("counted") == 20)
        self.quiet(again)
        self.holds(lambda: len(list(self.store.iterdir())) == 2)
        self.assertEqual(self.server.space.values()["counted"], 20)

    def test_offline_they_are_left_to_others(self) -> None:
        first, second = (self.rep(store=self.store, pusher=offline, puller=offline) for _ in range(2))
        first.mutate.once("x")
        second.mutate.once("y")
        groups = {first.client_group_id, second.client_group_id}
        first.close()
        second.close()
        opened = [self.rep(store=self.store, pusher=offline, puller=offline) for _ in range(3)]
        self.assertEqual({rep.client_group_id for rep in opened[:2]}, groups)
        self.assertNotIn(opened[2].client_group_id, groups)

    def test_what_the_server_does_not_know_is_set_aside(self) -> None:
        anna = self.rep(store=self.store, pusher=offline, schema_version="1")
        anna.pull(now=True).result(5)
        anna.mutate.once("x")
        group = anna.client_group_id
        anna.close()
        self.server.space.forget(group)
        aside: list[SetAside] = []
        again = self.rep(store=self.store, schema_version="2", on_set_aside=aside.append)
        self.holds(lambda: aside)
        self.assertEqual((aside[0].why, aside[0].path.name), ("ClientStateNotFound", f"{group}.refused"))
        self.assertEqual([(one.id, one.name, one.args) for one in aside[0].mutations], [(1, "once", "x")])
        self.assertIn(b'"name":"once"', aside[0].path.read_bytes())
        self.assertEqual({path.name for path in self.store.glob(f"{group}.*")}, {f"{group}.refused"})
        again.close()

    def test_a_group_that_lives_is_set_aside_too(self) -> None:
        told: list[str] = []
        aside: list[SetAside] = []
        anna = self.rep(store=self.store, pusher=offline, on_set_aside=aside.append,
                        on_client_state_not_found=lambda: told.append("lost"))
        anna.pull(now=True).result(5)
        anna.mutate.once("x")
        group = anna.client_group_id
        self.server.space.forget(group)
        anna.pull(now=True)
        self.holds(lambda: told == ["lost"])
        self.assertEqual(len(aside[0].mutations), 1)
        with self.assertRaises(Closed):
            anna.mutate.once("y")
        anna.close()
        again = self.rep(store=self.store)
        self.assertNotEqual(again.client_group_id, group)
        again.mutate.once("z")
        self.quiet(again)

    def test_a_server_that_answers_nonsense(self) -> None:
        anna = self.rep(store=self.store, pusher=offline, puller=offline, schema_version="1")
        anna.mutate.once("x")
        anna.close()
        bodies = [b"nonsense", b"[]", b'{"lastMutationIDChanges":{"x":"y"}}', b'{"lastMutationIDChanges":7}',
                  b"[" * 100_000]
        errors: list[str] = []
        sent: list[bytes] = []

        def puller(body: bytes, headers: dict[str, str]) -> Reply:
            own = again.client_group_id.encode() in body if "again" in locals_ else True
            if own or not bodies:
                return Reply(200, json.dumps(self.server.space.pull(json.loads(body))).encode())
            sent.append(body)
            return Reply(200, bodies.pop())

        locals_: dict[str, Any] = {}
        again = self.rep(store=self.store, schema_version="2", puller=puller,
                         on_error=lambda what, error: errors.append(what))
        locals_["again"] = again
        again.pull(now=True).result(5)
        self.holds(lambda: rows(again).get("n/x") == 1)
        self.holds(lambda: len(list(self.store.glob("*.lock"))) == 1)


class Judged(WithServer):
    """Groups that no process holds, and whose pushes the server refuses."""

    def left_by_two(self) -> tuple[str, str]:
        """The groups of two processes that ended with a mutation pending, in the order in which they are tried."""
        reps = [self.rep(store=self.store, pusher=offline, puller=offline, schema_version="1") for _ in range(2)]
        for rep in reps:
            rep.mutate.once(rep.client_group_id)
            rep.close()
        first, second = sorted(rep.client_group_id for rep in reps)
        return first, second

    def answering(self, group: str, status: int) -> Poster:
        """A pusher that answers this status to the pushes of one group, and counts them; the others are done."""
        def push(body: bytes, headers: dict[str, str]) -> Reply:
            words = json.loads(body)
            if words["clientGroupID"] == group:
                self.answered += 1
                return Reply(status, b"no")
            return Reply(200, json_bytes(self.server.space.push(words)))

        self.answered = 0
        return push

    @mock.patch("giqaymu.recovery.MOST_REFUSALS", 3)
    def test_what_the_server_refuses_for_ever_is_set_aside(self) -> None:
        first, second = self.left_by_two()
        aside: list[SetAside] = []
        errors: list[str] = []
        online: list[bool] = []
        self.rep(store=self.store, schema_version="2", pusher=self.answering(first, 400), on_set_aside=aside.append,
                 on_error=lambda what, error: errors.append(what), on_online_change=online.append)
        self.holds(lambda: aside)
        self.assertEqual((aside[0].why, aside[0].path.name), ("push: status 400, b'no'", f"{first}.refused"))
        self.assertEqual([one.args for one in aside[0].mutations], [first])
        self.holds(lambda: not list(self.store.glob(f"{second}.*")))  # the one behind it was recovered
        self.assertEqual((self.answered, errors, online), (3, ["recovery"] * 2, [True]))

    @mock.patch("giqaymu.recovery.MOST_REFUSALS", 3)
    def test_what_may_be_mended_is_not_set_aside(self) -> None:
        for status in (401, 403, 404, 429, 500):
            with self.subTest(status=status):
                first, _ = self.left_by_two()
                aside: list[SetAside] = []
                rep = self.rep(store=self.store, schema_version="2", pusher=self.answering(first, status),
                               on_set_aside=aside.append)
                self.holds(lambda: self.answered > 5)
                rep.close()
                self.assertEqual(aside, [])
                self.assertTrue((self.store / f"{first}.journal").exists())
                shutil.rmtree(self.store)


class Disk(WithServer):
    """What the disk does."""

    def file(self, rep: Replicache) -> Path:
        return self.store / f"{rep.client_group_id}.journal"

    def test_a_full_disk(self) -> None:
        anna = self.rep(store=self.store, pusher=offline, pull_interval=None)
        anna.pull(now=True).result(5)
        anna.mutate.once("ok")
        old = resource.getrlimit(resource.RLIMIT_FSIZE)
        resource.setrlimit(resource.RLIMIT_FSIZE, (self.file(anna).stat().st_size + 60, old[1]))
        try:
            for number in range(2, 4):
                with self.assertRaises(NotSafe) as told:
                    anna.mutate.once("torn")
                self.assertEqual((told.exception.id, told.exception.result), (number, number - 1))
            left = self.file(anna).read_bytes()
            self.assertTrue(left.endswith(b"\n"))
            self.assertEqual(left.count(b'{"mutation"'), 1)  # cut back behind the last whole line
        finally:
            resource.setrlimit(resource.RLIMIT_FSIZE, old)
        anna.mutate.once("after")
        self.assertEqual(rows(anna)["counted"], 4)
        before = what(anna)
        anna.close()
        self.assertEqual(what(self.rep(store=self.store, pusher=offline, puller=offline)), before)

    def test_a_failed_sync_goes_on_in_a_new_file(self) -> None:
        anna = self.rep(store=self.store, pusher=offline, puller=offline)
        anna.mutate.once("ok")
        inode = self.file(anna).stat().st_ino
        real, fails = os.fdatasync, [True]

        def fdatasync(file: int) -> None:
            if fails and fails.pop():
                raise OSError(5, "on purpose")
            real(file)

        with mock.patch.object(store.os, "fdatasync", fdatasync):
            anna.mutate.once("x")
        self.assertNotEqual(self.file(anna).stat().st_ino, inode)
        with mock.patch.object(store.os, "fdatasync", side_effect=OSError(5, "on purpose")):
            for _ in range(2):
                with self.assertRaises(NotSafe):
                    anna.mutate.once("y")
        anna.mutate.once("z")
        before = what(anna)
        anna.close()
        self.assertEqual(what(self.rep(store=self.store, pusher=offline, puller=offline)), before)

    def test_torn_lines(self) -> None:
        anna = self.rep(store=self.store, pusher=offline, puller=offline, durability="write")
        for number in range(5):
            anna.mutate.once(number)
        anna.close()
        file = self.file(anna)
        whole = file.read_bytes()
        ends = [at + 1 for at, byte in enumerate(whole) if byte == ord("\n")]
        aside: list[SetAside] = []
        for cut in range(ends[0], len(whole) + 1, 7):
            file.write_bytes(whole[:cut])
            again = self.rep(store=self.store, pusher=offline, puller=offline, on_set_aside=aside.append)
            self.assertEqual(len(pending(again)), sum(end <= cut for end in ends) - 1)
            again.mutate.once("more")
            again.close()
            again = self.rep(store=self.store, pusher=offline, puller=offline)
            self.assertEqual(pending(again)[-1][3], "more")
            again.close()
        self.assertEqual(aside, [])

    def test_a_damaged_file_is_kept_and_told(self) -> None:
        anna = self.rep(store=self.store, pusher=offline, puller=offline, durability="write")
        for number in range(5):
            anna.mutate.once(number)
        anna.close()
        file = self.file(anna)
        whole = file.read_bytes()
        lines = whole.split(b"\n")
        lines[3] = lines[3][:20] + b"?" + lines[3][21:]
        file.write_bytes(b"\n".join(lines))
        aside: list[SetAside] = []
        again = self.rep(store=self.store, pusher=offline, puller=offline, on_set_aside=aside.append)
        self.holds(lambda: aside)
        self.assertEqual(len(pending(again)), 2)
        self.assertEqual(aside[0].path.read_bytes(), b"\n".join(lines))
        self.assertIn("line 4 of 6", aside[0].why)

    def test_files_that_are_none(self) -> None:
        self.store.mkdir()
        for name, data in (("a", b""), ("b", b"nonsense\n" * 3), ("c", b"\x00" * 100)):
            (self.store / f"{name}.lock").touch()
            (self.store / f"{name}.journal").write_bytes(data)
        aside: list[SetAside] = []
        anna = self.rep(store=self.store, on_set_aside=aside.append)
        anna.mutate.once("x")
        self.quiet(anna)
        self.holds(lambda: {path.name for path in self.store.iterdir()}
                   == {"b.damaged", f"{anna.client_group_id}.lock", f"{anna.client_group_id}.journal"})
        self.assertEqual([one.path.name for one in aside], ["b.damaged"])

    def test_a_file_of_another_version_is_left_alone(self) -> None:
        anna = self.rep(store=self.store, pusher=offline, puller=offline)
        anna.mutate.once("x")
        anna.close()
        head, *lines = self.file(anna).read_bytes().split(b"\n")
        head = store._line(head[9:].replace(b'"giqaymu":1', b'"giqaymu":2'))[:-1]
        self.file(anna).write_bytes(b"\n".join([head, *lines]))
        again = self.rep(store=self.store)
        again.mutate.once("y")
        self.quiet(again)
        again.close()
        self.assertNotEqual(again.client_group_id, anna.client_group_id)
        self.assertEqual(self.file(anna).read_bytes().split(b"\n")[0], head)

    def test_a_file_stays_short_over_many_processes(self) -> None:
        sizes = []
        with mock.patch.object(store, "LONG", 2000):
            for _ in range(30):
                anna = self.rep(store=self.store, durability="write")
                for number in range(5):
                    anna.mutate.once(number)
                    anna.push(now=True).result(5)
                    anna.pull(now=True).result(5)
                self.quiet(anna)
                anna.close()
                sizes.append(self.file(anna).stat().st_size)
        self.assertLess(max(sizes), 10_000)

    def test_a_sync_behind_a_failed_one_says_nothing(self) -> None:
        anna = self.rep(store=self.store, pusher=offline, puller=offline)
        anna.mutate.once("x")
        file = anna._kept._file
        assert file is not None
        with mock.patch.object(store.os, "fdatasync", side_effect=OSError(5, "on purpose")):
            with self.assertRaises(OSError):
                file.settle(file._written + 1)
        with self.assertRaises(OSError):
            file.settle(file._written + 1)
        anna.mutate.once("y")  # goes to a new file
        file.settle(file._written)

    def test_nothing_made_leaves_nothing(self) -> None:
        anna = self.rep(store=self.store, pusher=offline, puller=offline)
        anna.close()
        self.assertEqual(list(self.store.iterdir()), [])

    def test_threads_share_a_sync(self) -> None:
        anna = self.rep(store=self.store, pusher=offline, puller=offline)
        anna.mutate.once("x")
        syncs: list[int] = []
        real = os.fdatasync

        def fdatasync(file: int) -> None:
            syncs.append(file)
            threading.Event().wait(0.005)
            real(file)

        def work(rep: Replicache) -> None:
            for number in range(20):
                rep.mutate.once(number)

        threads = [threading.Thread(target=work, args=[rep]) for rep in (anna, *(anna.client() for _ in range(7)))]
        with mock.patch.object(store.os, "fdatasync", fdatasync):
            for thread in threads:
                thread.start()
            for thread in threads:
                thread.join()
        self.assertLess(len(syncs), 100)
        self.assertEqual(rows(anna)["counted"], 161)


class Locks(WithServer):
    """Who may use which files."""

    def left(self) -> list[str]:
        names = []
        for one in left_behind(self.store):
            names.append(one.path.stem)
            one.let_go()
        return names

    def test_a_lock_is_held_and_let_go(self) -> None:
        anna = self.rep(store=self.store, pusher=offline, puller=offline)
        anna.mutate.once("x")
        self.assertEqual(self.left(), [])
        anna.close()
        self.assertEqual(self.left(), [anna.client_group_id])

    def test_a_killed_process_lets_go(self) -> None:
        code = f"""
import os, signal, sys
sys.path[:0] = {[str(HERE), *sys.path]!r}
import todo
from giqaymu import Replicache
rep = Replicache(mutators=todo.MUTATORS, store={str(self.store)!r})
for number in range(10): rep.mutate.once(number)
os.kill(os.getpid(), signal.SIGKILL)
"""
        subprocess.run([sys.executable, "-c", code], check=False, timeout=30)
        anna = self.rep(store=self.store)
        self.assertEqual(len({one.client_id for one in anna.experimental_pending_mutations()}), 1)
        self.quiet(anna)
        self.assertEqual(self.server.space.values()["counted"], 10)

    def test_a_lock_file_that_was_taken_away_meanwhile(self) -> None:
        self.store.mkdir()
        path = self.store / "x.lock"
        real, first = fcntl.flock, [True]

        def flock(file: int, how: int) -> None:
            if first and first.pop():
                path.unlink()  # another process was quicker
            real(file, how)

        with mock.patch.object(store.fcntl, "flock", flock):
            file = store._locked(path)
        self.assertTrue(store._is_of_name(file, path))
        os.close(file)
        first.append(True)
        with mock.patch.object(store.fcntl, "flock", flock):
            self.assertIsNone(store._lock_free(path))
        self.assertIsNone(store._lock_free(path))
