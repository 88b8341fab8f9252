#!/usr/bin/env python3
"""What the layer costs beside the bare library, as ratios of one run, and what an idle process costs.

    python3 figures.py [ROUNDS]

Each round does the same with a place of a `Group` and with a client of `Replicache`, in turn, twenty calls at a time;
the least counts. The layer has no server here, so nothing is pushed meanwhile. The idle process has a server, a store,
a subscription and a stream of pokes.
"""

from __future__ import annotations

import gc
import json
import os
import sys
import tempfile
import time
import uuid
from collections.abc import Callable
from pathlib import Path
from typing import Any

HERE = Path(__file__).resolve().parent
sys.path[:0] = [str(HERE), str(HERE.parent / "src")]
import todo  # noqa: E402
from giqaymu import Group, Replicache, Reply  # noqa: E402
from server import Server  # noqa: E402

SLICES, SLICE = 50, 20
MOST = {"mutate": 1.3, "query": 1.5}


def bare_put(tx: Any, args: Any) -> None:
    """A mutator of the bare library that puts a row."""
    tx.put(args["id"], args)


def put(tx: Any, args: Any) -> None:
    """The same of the layer."""
    tx.set(args["id"], args)


def bare_once(tx: Any, args: Any) -> None:
    """A mutator of the bare library with two gets and two puts."""
    tx.put(f"n/{args}", tx.get(f"n/{args}", 0) + 1)
    tx.put("counted", tx.get("counted", 0) + 1)


RULES = {"put": [["put", ["arg", "id"], ["arg", "text"]]]}


def bare(mutators: Any = None, rules: Any = None) -> Any:
    """A place of a group."""
    group = Group(str(uuid.uuid4()), profile="p", schema="s", mutators=mutators, rules=rules, slots=1 << 16, places=20)
    group.places[0].sit()
    return group.places[0]


def layer(**words: Any) -> Replicache:
    """A client of the layer."""
    return Replicache(slots=1 << 16, **words)


Call = Callable[[int], object]


def seconds(library: Call, ours: Call) -> tuple[float, float]:
    """How long a call takes, of both: the least of slices that are run in turn, so that both have the same load."""
    least = [float("inf"), float("inf")]
    gc.disable()
    for at in range(SLICES):
        for which, call in enumerate((library, ours)):
            begun = time.perf_counter()
            for number in range(at * SLICE, (at + 1) * SLICE):
                call(number)
            least[which] = min(least[which], (time.perf_counter() - begun) / SLICE)
    gc.enable()
    return least[0], least[1]


def mutations(kind: str, store: dict[str, Any] | None = None) -> tuple[float, float]:
    """A mutation of the bare library, and of the layer."""
    if kind == "rule":
        place, rep = bare(rules=RULES), layer(rules=RULES, **(store or {}))
    else:
        place = bare({"put": bare_put, "once": bare_once})
        rep = layer(mutators={"put": put, "once": todo.once}, **(store or {}))
    try:
        if kind == "two gets and puts":
            return seconds(lambda n: place.mutate("once", n % 50), lambda n: rep.mutate.once(n % 50))
        return seconds(lambda n: place.mutate("put", {"id": str(n % 50), "text": "t"}),
                       lambda n: rep.mutate.put({"id": str(n % 50), "text": "t"}))
    finally:
        rep.close()


def queries() -> dict[str, tuple[float, float]]:
    """Queries of the bare library, and of the layer."""
    place, rep = bare({"put": bare_put}), layer(mutators={"put": put})
    for number in range(1000):
        place.mutate("put", {"id": f"{number:04}", "text": "t"})
        rep.mutate.put({"id": f"{number:04}", "text": "t"})
    keys = [f"{number:04}" for number in range(100, 600, 100)]

    def read(query: Callable[[Any], object]) -> object:
        with place.reading() as reading:
            return query(reading)

    asked: dict[str, Callable[[Any], object]] = {
        "query of one get": lambda tx: tx.get("0500"),
        "query of five gets": lambda tx: [tx.get(key) for key in keys],
        "query of a scan of 100": lambda tx: tx.scan("00"),
    }
    try:
        return {name: seconds(lambda n: read(query), lambda n: rep.query(query)) for name, query in asked.items()}
    finally:
        rep.close()


def pause(rows: int, pending: int) -> float:
    """How long a group of so many rows and pending mutations takes to grow."""
    patch = [{"op": "put", "key": f"{number:06}", "value": {"text": "t" * 30}} for number in range(rows)]

    def puller(body: bytes, headers: dict[str, str]) -> Reply:
        new = patch if json.loads(body)["cookie"] is None else []
        return Reply(200, json.dumps({"cookie": 1, "lastMutationIDChanges": {}, "patch": new}).encode())

    rep = layer(mutators={"once": todo.once}, puller=puller)
    try:
        rep.pull(now=True).result(60)
        for number in range(pending):
            rep.mutate.once(number)
        begun = time.perf_counter()
        with rep._kept._lock:
            rep._kept._grow()
        return time.perf_counter() - begun
    finally:
        rep.close()


def idle(length: float) -> float:
    """How much of a processor an idle process takes."""
    server = Server()
    child = os.fork()
    if child == 0:
        with tempfile.TemporaryDirectory() as folder:
            rep = Replicache(**server.urls, poke_url=server.url + "/poke", mutators=todo.MUTATORS, store=folder)
            rep.subscribe(lambda tx: tx.scan(), lambda rows: None)
            rep.mutate.once("x")
            while rep.experimental_pending_mutations():
                time.sleep(0.01)
            time.sleep(1)
            begun = time.process_time()
            time.sleep(length)
            taken = time.process_time() - begun
            os._exit(min(255, int(taken * 1e6 / length / 10)))
    _, status = os.waitpid(child, 0)
    server.end()
    return os.waitstatus_to_exitcode(status) * 10 / 1e6


def main(rounds: str = "7") -> int:
    """The figures; 1 where one is above what it may be."""
    best: dict[str, tuple[float, float]] = {}

    def told(name: str, pair: tuple[float, float]) -> None:
        old = best.get(name, pair)
        best[name] = min(old[0], pair[0]), min(old[1], pair[1])

    for _ in range(int(rounds)):
        for kind in ("one put", "two gets and puts", "rule"):
            told(f"mutate, {kind}", mutations(kind))
        for name, pair in queries().items():
            told(name, pair)
        for durability in ("write", "fsync"):
            with tempfile.TemporaryDirectory(dir=HERE) as folder:
                words = {"store": folder, "durability": durability}
                told(f"store, {durability}", mutations("two gets and puts", words))
    wrong = False
    for name, (library, ours) in best.items():
        most = MOST.get(name.split(",")[0].split(" ")[0]) if "scan" not in name else None
        wrong |= most is not None and ours / library > most
        print(f"{name}: library {library * 1e6:.1f} us, layer {ours * 1e6:.1f} us, ratio {ours / library:.2f}")
    for rows, pending in ((1000, 100), (20_000, 1000)):
        least = min(pause(rows, pending) for _ in range(3))
        print(f"a group of {rows} rows and {pending} pending mutations grows: {least * 1e3:.0f} ms")
    share = idle(5.0)
    print(f"idle: {share * 1e6:.0f} us of processor time a second")
    return 1 if wrong or share > 0.001 else 0


if __name__ == "__main__":
    sys.exit(main(*sys.argv[1:]))
