#!/usr/bin/env python3
"""Attacks the server's transactions over PostgreSQL: each mutation has to be done once.

    demo/attack.py [--processes 8] [--times 100] [--kill 0.05] [--read-committed]

So many processes, each one a server of its own over one database, all do the pushes of the same clients, as if each
request were sent once to each of them, at the same time: so a request meets itself. Meanwhile the backends of the
database are killed, one every `--kill` seconds, and each process pulls by its cookie, one pull behind the other. At the
end each mutation was done once, and what the pulls brought is what a new client gets.

With `--read-committed` the transactions are those that one would write first: at PostgreSQL's default isolation, with
no lock. Then the attack has to find mutations that were done twice, or pulls that missed rows: the status is 0 where it
finds some. It needs psycopg2 and PostgreSQL's programs, starts a server of its own, and ends within two minutes.
"""

from __future__ import annotations

import argparse
import json
import random
import sys
import threading
import time
from pathlib import Path
from typing import Any

HERE = Path(__file__).resolve().parent
sys.path[:0] = [str(HERE), str(HERE.parent / "hosts" / "python" / "src")]

import todo  # noqa: E402
from children import Child, Failed  # noqa: E402
from own_postgres import OwnPostgres, lacks  # noqa: E402
from server.bodies import BadRequest, Mutation, Pull, Push  # noqa: E402
from server.databases import Counts  # noqa: E402
from server.space import Space, StateNotFound  # noqa: E402

Json = Any

CLIENTS = 4
"""How many clients there are, two in each group."""
MOST_AT_ONCE = 6
"""How many mutations a push has at the most."""
SECONDS = 110.0
"""How long the processes may take."""
BACKENDS = """
    select pg_terminate_backend(pid) from pg_stat_activity
    where datname = '{}' and pid <> pg_backend_pid() order by random() limit 1
"""


def space_over(database: str, counts: Counts, read_committed: bool) -> Space:
    """The server's own transactions, or the obvious ones."""
    from server.postgres import Postgres

    class ReadCommitted(Postgres):
        begin_writing = ("begin isolation level read committed",)
        begin_reading = ("begin isolation level read committed, read only",)

    return Space((ReadCommitted if read_committed else Postgres)(database, counts), todo.MUTATORS, counts)


def uuid_of(number: int) -> str:
    """An ID: of a client, and from 100 on of a group."""
    return f"00000000-0000-4000-8000-{number:012}"


def group_of(client: int) -> str:
    """The group of a client."""
    return uuid_of(100 + client % 2)


def mutations(client: int, times: int) -> list[Mutation]:
    """All that a client makes."""
    return [Mutation(uuid_of(client), n, "once", {"id": f"{client}-{n}"}) for n in range(1, times + 1)]


def push_all(space: Space, times: int, dice: random.Random, counts: Counts) -> None:
    """Pushes all mutations of all clients, a few at a time; each push begins with one that was pushed before.

    Where the server has forgotten what it answered, all is pushed again.
    """
    pushed = dict.fromkeys(range(CLIENTS), 0)
    while pushed:
        client = dice.choice(sorted(pushed))
        begin = max(0, pushed[client] - 1)
        end = begin + dice.randint(2, MOST_AT_ONCE)
        try:
            space.push(Push(group_of(client), mutations(client, times)[begin:end]))
            pushed[client] = end
        except (BadRequest, StateNotFound):
            counts.add("forgotten")
            pushed[client] = 0
        if pushed[client] >= times:
            del pushed[client]


class Puller(threading.Thread):
    """Pulls by its cookie until it is told to end: then it has `rows`."""

    def __init__(self, space: Space) -> None:
        super().__init__(daemon=True)
        self.space = space
        self.ended = threading.Event()
        self.cookie: int | None = None
        self.rows: dict[str, Json] = {}
        self.pulls = 0

    def pull(self) -> None:
        """One pull, and what it brings."""
        response = self.space.pull(Pull(group_of(0), self.cookie))
        self.cookie = response["cookie"]
        for op in response["patch"]:
            if op["op"] == "clear":
                self.rows.clear()
            elif op["op"] == "put":
                self.rows[op["key"]] = op["value"]
            else:
                self.rows.pop(op["key"], None)
        self.pulls += 1

    def run(self) -> None:
        while not self.ended.is_set():
            self.pull()


def attacker(database: str, times: int, seed: int, read_committed: bool) -> None:
    """One of the processes. It begins at a line of its standard input, and tells at the next one what it pulled."""
    counts = Counts()
    space = space_over(database, counts, read_committed)
    print("ready", flush=True)
    sys.stdin.readline()
    puller = Puller(space)
    puller.start()
    push_all(space, times, random.Random(seed), counts)
    puller.ended.set()
    puller.join(30)
    print("done", flush=True)
    sys.stdin.readline()
    puller.pull()
    fresh = Puller(space)
    fresh.pull()
    missed = sum(puller.rows.get(key) != value for key, value in fresh.rows.items())
    print(json.dumps({"missed": missed, "counts": counts.all() | {"pulls by cookie": puller.pulls}}), flush=True)


class Killer(threading.Thread):
    """Kills a backend of the database now and then."""

    def __init__(self, postgres: OwnPostgres, database: str, every: float) -> None:
        super().__init__(daemon=True)
        self.postgres, self.every, self.killed = postgres, every, 0
        self.statement = BACKENDS.format(database.partition("///")[2].partition("?")[0])
        self.ended = threading.Event()

    def run(self) -> None:
        while self.every and not self.ended.wait(self.every):
            self.killed += len(self.postgres.statement(self.statement))


def attack(words: argparse.Namespace, postgres: OwnPostgres, children: list[Child]) -> bool:
    """The attack: whether each mutation was done once, and no pull missed a row."""
    database = postgres.new_database()
    counts = Counts()
    space = space_over(database, counts, words.read_committed)  # makes the tables
    options = ["--database", database, "--times", str(words.times)]
    options += ["--read-committed"] if words.read_committed else []
    for seed in range(words.processes):
        children.append(Child(sys.executable, __file__, *options, "--seed", str(seed)))
    for child in children:
        child.line()
    killer = Killer(postgres, database, words.kill)
    begun = time.monotonic()
    killer.start()
    try:
        for child in children:
            child.ask()
        for child in children:
            child.line(SECONDS)
    finally:
        killer.ended.set()
        killer.join(10)
    seconds = time.monotonic() - begun
    for child in children:
        child.ask()
    ends = [json.loads(child.line()) for child in children]
    print(f"{words.processes} processes, {seconds:.1f} s, {killer.killed} backends killed", flush=True)
    return judge(space.report(), ends, words.times)


def judge(report: Json, ends: list[Json], times: int) -> bool:
    """Says what came of it; whether that is right."""
    rows = dict(report["rows"])
    done = [rows.get(f"once/{client}-{n}", 0) for client in range(CLIENTS) for n in range(1, times + 1)]
    twice, never = sum(n > 1 for n in done), sum(n < 1 for n in done)
    missed = sum(end["missed"] for end in ends)
    totals: dict[str, int] = {}
    for end in ends:
        for what, number in end["counts"].items():
            totals[what] = totals.get(what, 0) + number
    print(f"of {len(done)} mutations {twice} were done twice or more, {never} never; {missed} rows missed by pulls")
    print(", ".join(f"{what} {number}" for what, number in sorted(totals.items())), flush=True)
    last_ids = [report["clients"].get(uuid_of(client)) for client in range(CLIENTS)]
    is_whole = rows.get("all") == len(done) and last_ids == [times] * CLIENTS
    return is_whole and not (twice or never or missed or totals.get("forgotten"))


def main() -> int:
    """The command."""
    parser = argparse.ArgumentParser(description="Attacks the server's transactions over PostgreSQL.")
    parser.add_argument("--processes", type=int, default=8)
    parser.add_argument("--times", type=int, default=100, help="how many mutations each of the clients makes")
    parser.add_argument("--kill", type=float, default=0.05, help="how often a backend is killed, in seconds; 0: never")
    parser.add_argument("--read-committed", action="store_true", help="the transactions that one would write first")
    parser.add_argument("--database", help=argparse.SUPPRESS)
    parser.add_argument("--seed", type=int, help=argparse.SUPPRESS)
    words = parser.parse_args()
    if words.database:
        attacker(words.database, words.times, words.seed, words.read_committed)
        return 0
    if (lacking := lacks()) is not None:
        print(f"demo/attack.py: there is no {lacking}", file=sys.stderr)
        return 2
    children: list[Child] = []
    try:
        with OwnPostgres() as postgres:
            is_right = attack(words, postgres, children)
    except Failed as failed:
        print(f"demo/attack.py: {failed}", file=sys.stderr)
        return 1
    finally:
        for child in children:
            child.kill()
    return int(is_right == words.read_committed)


if __name__ == "__main__":
    sys.exit(main())
