#!/usr/bin/env python3
"""Groups that are opened again are what they were, in random sessions against a server that does anything.

    python3 sessions.py SESSIONS [FIRST]

A session is 40 steps: mutations of up to three clients, pulls that put, delete and confirm at random, and processes
that end and open the group again: its rows, its pending mutations with their arguments, its cookie and its ID have to
be what they were, by the library and by the journal. Half of the sessions have mutators of their own, half have rules;
groups begin with 16 slots and grow, and files are written anew from 2,000 bytes on. Many of the pending mutations
refuse by the time at which they are restored. It prints what was counted; a difference ends it with status 1.
"""

from __future__ import annotations

import json
import random
import sys
import tempfile
import time
from collections import Counter
from pathlib import Path
from typing import Any

HERE = Path(__file__).resolve().parent
sys.path[:0] = [str(HERE), str(HERE.parent / "src")]
import todo  # noqa: E402
from giqaymu import Offline, Refusal, Replicache, Reply, RequestOptions, Why, groups, playing, store  # noqa: E402

NEVER = RequestOptions(min_delay=600.0, max_delay=600.0)
counts: Counter[str] = Counter()


def offline(body: bytes, headers: dict[str, str]) -> Reply:
    """A poster that reaches nobody."""
    raise Offline("on purpose")


class Session:
    """A group, its server, and the clients that are open."""

    def __init__(self, seed: int, folder: str) -> None:
        self.dice = random.Random(seed)
        self.folder = folder
        self.has_rules = seed % 2 == 1
        self.version = 0
        self.rows: dict[str, Any] = {}
        self.done: dict[str, int] = {}
        self.made: list[tuple[str, int]] = []
        self.answers = False
        self.open()

    def open(self) -> None:
        """Opens the group that is there, or a new one."""
        words: Any = {"rules": todo.RULES} if self.has_rules else {"mutators": todo.MUTATORS}
        rep = Replicache(puller=self.pull, pusher=offline, store=self.folder, durability="write", pull_interval=None,
                         slots=16, clients=3, request_options=NEVER, **words)
        rep._kept._next_cut = 10
        self.clients = [rep]

    def value(self) -> Any:
        """What the server puts."""
        text = str(self.version)
        return text if self.has_rules else {"done": self.dice.random() < 0.5, "text": text, "at": 0}

    def pull(self, body: bytes, headers: dict[str, str]) -> Reply:
        """What the server answers: anything that it may."""
        if not self.answers:
            raise Offline("on purpose")
        self.version += 1
        is_first = json.loads(body)["cookie"] is None
        patch, changes = [], dict(self.done) if is_first else {}
        for client, number in list(self.made):
            if self.dice.random() < 0.25 and number == self.done.get(client, 0) + 1:
                self.done[client] = changes[client] = number
                self.made.remove((client, number))
        for _ in range(self.dice.randrange(4)):
            key = f"todo/{self.dice.randrange(6)}"
            if self.dice.random() < 0.4:
                self.rows.pop(key, None)
                patch.append({"op": "del", "key": key})
            else:
                self.rows[key] = self.value()
                patch.append({"op": "put", "key": key, "value": self.rows[key]})
        if is_first or self.dice.random() < 0.05:
            patch = [{"op": "clear"}, *({"op": "put", "key": key, "value": row} for key, row in self.rows.items())]
        answer = {"cookie": self.version, "lastMutationIDChanges": changes, "patch": patch}
        return Reply(200, json.dumps(answer).encode())

    def what(self) -> Any:
        """All that the group is."""
        rep = self.clients[0]
        mutations = json.loads(rep._kept.push_body())["mutations"]
        told = [(one.client_id, one.id, one.name, one.args) for one in rep.experimental_pending_mutations()]
        assert told == [(one["clientID"], one["id"], one["name"], one["args"]) for one in mutations], (told, mutations)
        return rep.query(lambda tx: tx.scan()), told, rep._kept._place(0).cookie(), rep.client_group_id

    def mutate(self) -> None:
        """A mutation of one of the clients."""
        if len(self.clients) < 3 and self.dice.random() < 0.2:
            self.clients.append(self.clients[0].client())
        client = self.dice.choice(self.clients)
        names = ["add", "rename", "remove"] + ["toggle"] * (not self.has_rules)
        try:
            client.mutate(self.dice.choice(names), {"id": str(self.dice.randrange(6)), "text": "t"})
        except Refusal as refusal:
            assert refusal.why is Why.REFUSED, refusal
            return
        counts["mutations"] += 1
        self.made.append((client.client_id, client._kept._place(client._seat.number).refresh()))

    def again(self) -> None:
        """The process ends, and another one opens the group."""
        before = self.what()
        counts["grown"] += self.clients[0]._kept.slots > 16
        self.clients[0].close()
        self.open()
        after = self.what()
        if before[:3] == ([], [], None):
            before = (*before[:3], after[3])  # nothing was made, so nothing was kept
        assert before == after, (before, after)
        counts["restarts"] += 1
        counts["pending"] += len(after[1])

    def step(self) -> None:
        """One step."""
        chance = self.dice.random()
        if chance < 0.55:
            self.mutate()
        elif chance < 0.85:
            self.answers = True
            self.clients[0].pull(now=True).result(10)
            self.answers = False
        else:
            self.again()


def counting() -> None:
    """Counts what refuses when it is restored, and files that are written anew; and makes both frequent."""
    store.LONG, groups.CUT = 2000, 10
    nothing, opened, replace = playing._nothing, playing.Player.opened, store.JournalFile.replace

    def idle(draft: Any, args: Any) -> None:
        counts["refusing"] += 1
        nothing(draft, args)

    def played(self: Any, entries: Any, slots: int) -> Any:
        try:
            return opened(self, entries, slots)
        except playing.Unplayable:
            counts["played as written"] += 1
            raise

    def replaced(self: Any, whole: Any) -> int:
        counts["written anew"] += 1
        return replace(self, whole)

    playing._nothing, playing.Player.opened, store.JournalFile.replace = idle, played, replaced  # type: ignore


def main(sessions: str = "400", first: str = "0") -> int:
    """The sessions."""
    begun = time.monotonic()
    counting()
    for seed in range(int(first), int(first) + int(sessions)):
        with tempfile.TemporaryDirectory() as folder:
            session = Session(seed, folder)
            try:
                for _ in range(40):
                    session.step()
            except BaseException:
                print(f"session {seed}", file=sys.stderr)
                raise
            finally:
                session.clients[0].close()
    print(f"{sessions} sessions: {counts['restarts']} restarts, {counts['mutations']} mutations, {counts['pending']}"
          f" pending ones restored, {counts['refusing']} runs that refused by then, {counts['played as written']} times"
          f" played as written, {counts['written anew']} files written anew, {counts['grown']} grown groups: no"
          f" difference, {time.monotonic() - begun:.0f} s")
    return 0


if __name__ == "__main__":
    sys.exit(main(*sys.argv[1:]))
