#!/usr/bin/env python3
"""kill -9 at random moments: no acknowledged mutation is lost, and none is done twice.

    python3 kills.py TIMES [PROCESSES [fsync|write]]

So many processes at a time open a group over one folder. Each makes mutations from two clients on two threads, and
prints each that was acknowledged; it is killed at a random moment, four of five while they work, the others from their
start on. The server loses a tenth of the requests and of the responses, and cuts a twentieth. At the end a last client
restores and recovers what is left. It prints what was counted, and ends with status 1 where something was lost or done
twice, or is left in the folder but for the last one's group.
"""

from __future__ import annotations

import itertools
import os
import random
import signal
import subprocess
import sys
import tempfile
import threading
import time
from pathlib import Path

HERE = Path(__file__).resolve().parent
sys.path[:0] = [str(HERE), str(HERE.parent / "src")]
import todo  # noqa: E402
from giqaymu import Replicache, RequestOptions  # noqa: E402
from server import Server  # noqa: E402

QUICK = RequestOptions(min_delay=0.01, max_delay=0.2, timeout=5.0)


def child(url: str, folder: str, name: str, durability: str) -> None:
    """Makes mutations until it is killed."""
    rep = Replicache(push_url=url + "/push", pull_url=url + "/pull", poke_url=url + "/poke", mutators=todo.MUTATORS,
                     store=folder, durability=durability, request_options=QUICK)  # type: ignore[arg-type]

    def work(client: Replicache, who: str) -> None:
        for number in itertools.count():
            key = f"{name}-{who}-{number}"
            client.mutate.once(key)
            os.write(1, (key + "\n").encode())
            time.sleep(0.001)

    threading.Thread(target=work, args=(rep.client(), "b"), daemon=True).start()
    work(rep, "a")


class Kills:
    """The processes, and what they acknowledged."""

    def __init__(self, room: Path, url: str, durability: str) -> None:
        self.room, self.url, self.durability = room, url, durability
        self.acknowledged: list[str] = []
        self.kills = self.early = 0
        self.ended: list[int] = []
        self._lock = threading.Lock()

    def kill_one(self, number: int, dice: random.Random) -> None:
        """Starts a process, and kills it."""
        out = self.room / f"out{number}"
        name = f"{number}-{os.urandom(3).hex()}"
        words = [sys.executable, __file__, "child", self.url, str(self.room / "store"), name, self.durability]
        with out.open("wb") as file:
            process = subprocess.Popen(words, stdout=file, stderr=subprocess.PIPE)
            if dice.random() < 0.8:
                end = time.monotonic() + 30
                while out.stat().st_size == 0 and time.monotonic() < end and process.poll() is None:
                    time.sleep(0.005)
                time.sleep(dice.uniform(0, 0.6))
            else:
                time.sleep(dice.uniform(0.05, 1.5))
            ended = process.poll()
            process.send_signal(signal.SIGKILL)
            said = process.communicate()[1]
        lines = out.read_text().split("\n")[:-1]
        with self._lock:
            self.kills += 1
            self.early += not lines
            self.acknowledged += lines
            if ended is not None:
                self.ended.append(ended)
                print(said.decode(errors="replace")[-2000:], file=sys.stderr)

    def lane(self, numbers: range, seed: int) -> None:
        """One process after the other."""
        dice = random.Random(seed)
        for number in numbers:
            self.kill_one(number, dice)


def left_over(folder: Path) -> list[str]:
    """What is in the folder, but for locks and journals."""
    return sorted(path.name for path in folder.iterdir() if path.suffix not in (".lock", ".journal"))


def run(times: int, processes: int, durability: str) -> bool:
    """The kills; whether all is as it has to be."""
    begun, seed = time.monotonic(), random.SystemRandom().randrange(2**31)
    server = Server()
    server.lose, server.cut = 0.1, 0.05
    with tempfile.TemporaryDirectory(ignore_cleanup_errors=True) as room:
        kills = Kills(Path(room), server.url, durability)
        lanes = [threading.Thread(target=kills.lane, args=(range(lane, times, processes), seed + lane))
                 for lane in range(processes)]
        for lane in lanes:
            lane.start()
        for lane in lanes:
            lane.join()
        server.lose = server.cut = 0.0
        folder = Path(room) / "store"
        groups = len(list(folder.glob("*.journal")))
        last = Replicache(**server.urls, mutators=todo.MUTATORS, store=folder, request_options=QUICK)
        end = time.monotonic() + 60
        while time.monotonic() < end and (last.experimental_pending_mutations()
                                          or len(list(folder.glob("*.journal"))) > 1):
            time.sleep(0.02)
        last.pull(now=True).result(10)
        shown = dict(last.query(lambda tx: tx.scan()))
        last.close()
        left = left_over(folder) + [path.name for path in folder.glob("*.journal")][1:]
    rows = server.space.values()
    counts = server.space.counts
    server.end()
    done = {key[2:]: value for key, value in rows.items() if key.startswith("n/")}
    lost = [key for key in kills.acknowledged if key not in done]
    twice = [key for key, value in done.items() if value != 1]
    print(f"{times} kills of {processes} processes at a time, {durability}, seed {seed}: {kills.early} before the first"
          f" acknowledgement, {len(kills.acknowledged)} acknowledged, {len(lost)} lost, {len(twice)} done twice,"
          f" {len(done) - len(kills.acknowledged)} done that were not acknowledged; {groups} groups at the end,"
          f" {counts['seen']} sent again, {counts['gaps']} gaps, {time.monotonic() - begun:.0f} s", flush=True)
    right = not (lost or twice or left or kills.ended or counts["gaps"]) and shown == rows
    if not right:
        print(f"lost {lost[:5]}, twice {twice[:5]}, left {left}, ended {kills.ended}, shown {shown == rows}")
    return right


def main(times: str = "200", processes: str = "1", durability: str = "fsync") -> int:
    """The kills."""
    return 0 if run(int(times), int(processes), durability) else 1


if __name__ == "__main__":
    if sys.argv[1:2] == ["child"]:
        child(*sys.argv[2:])
    sys.exit(main(*sys.argv[1:]))
