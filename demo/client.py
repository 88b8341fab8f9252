"""A client process of the demo: two clients of one group, each on a thread of its own, over the class `Replicache`.

    python3 client.py ADDRESS NAME SEED TIMES PAUSE FOLDER mutators|rules

The two make TIMES mutations together, whether the server can be reached or not, with a pause of up to PAUSE
milliseconds behind each. The group is kept in FOLDER: a process that is killed and started again goes on with what it
had pending. Each mutation `once` has an ID of its own, which is written to FOLDER/acknowledged when the call has
returned: from then on it may not be lost.

When nothing is pending the process prints `quiet`. At the next line of its standard input it pulls once more, and
prints what it ends with as JSON: its rows, what is pending, and what was counted.
"""

from __future__ import annotations

import json
import logging
import os
import random
import sys
import threading
import time
from collections import Counter
from pathlib import Path
from typing import Any

HERE = Path(__file__).resolve().parent
sys.path[:0] = [str(HERE), str(HERE.parent / "hosts" / "python" / "src")]
import todo  # noqa: E402
from giqaymu import Refusal, Replicache, RequestOptions, Why  # noqa: E402

Json = Any

TODOS = 30
ONCE = 0.4
"""Which part of the mutations are `once`."""
QUICK = RequestOptions(min_delay=0.01, max_delay=0.3, timeout=5.0)
WAIT = 30.0
"""How many seconds the last pull may take."""
GLANCE = 0.01
"""How often it is looked whether something is pending, in seconds."""


class Process:
    """The clients, and what they count."""

    def __init__(self, address: str, name: str, seed: int, times: int, pause: int, folder: Path, kind: str) -> None:
        self.name = f"{name}{os.getpid()}"
        self.seed, self.times, self.pause = seed, times, pause / 1000
        self.lock = threading.Lock()
        self.counts: Counter[str] = Counter()
        folder.mkdir(parents=True, exist_ok=True)
        self.acknowledged = os.open(folder / "acknowledged", os.O_WRONLY | os.O_APPEND | os.O_CREAT)
        rules = json.loads((HERE / "rules.json").read_text(encoding="utf-8"))
        self.rep = Replicache(
            push_url=f"{address}/push",
            pull_url=f"{address}/pull",
            poke_url=f"{address}/poke",
            mutators=todo.MUTATORS if kind == "mutators" else None,
            rules=rules if kind == "rules" else None,
            schema_version="1",
            profile_id=name,
            request_options=QUICK,
            store=folder / "store",
            on_error=lambda what, error: self.count(f"{what} {type(error).__name__}"),
        )
        self.counts["resumed"] = len(self.rep.experimental_pending_mutations())

    def count(self, what: str) -> None:
        """It happened once more."""
        with self.lock:
            self.counts[what] += 1

    def mutation(self, dice: random.Random, number: str) -> tuple[str, Json]:
        """A mutator, and its arguments."""
        item, text = str(dice.randrange(TODOS)), f"{self.name}{number}"
        mutations: list[tuple[str, Json]] = [
            ("add", {"id": item, "text": text}),
            ("rename", {"id": item, "text": text}),
            ("toggle", {"id": item}),
            ("remove", {"id": item}),
            ("set", [f"note/{item}", text]),
            ("append", [f"log/{self.name}", text[-1]]),
        ]
        return ("once", {"id": text}) if dice.random() < ONCE else dice.choice(mutations)

    def mutate(self, client: Replicache, who: str, times: int) -> None:
        """Makes the mutations of a client."""
        dice = random.Random(f"{self.seed}{who}")
        for number in range(times):
            name, args = self.mutation(dice, f"-{who}{number}")
            try:
                client.mutate(name, args)
            except Refusal as refusal:
                if refusal.why is not Why.REFUSED:
                    raise
                self.count("refused")
            else:
                self.count("made")
                if name == "once":
                    os.write(self.acknowledged, f"{args['id']}\n".encode())
            time.sleep(dice.random() * self.pause)

    def run(self) -> None:
        """The two threads; then nothing is pending."""
        half = self.times // 2
        other = threading.Thread(target=self.mutate, args=(self.rep.client(), "y", half))
        other.start()
        self.mutate(self.rep, "x", self.times - half)
        other.join()
        while self.rep.experimental_pending_mutations():
            time.sleep(GLANCE)

    def report(self) -> Json:
        """Pulls once more, and what the process ends with."""
        self.rep.pull(now=True).result(WAIT)
        pending = [list(one) for one in self.rep.experimental_pending_mutations()]
        rows = self.rep.query(lambda tx: [list(row) for row in tx.scan()])
        return {"rows": rows, "pending": pending, "counts": self.counts}


def main(address: str, name: str, seed: str, times: str, pause: str, folder: str, kind: str) -> None:
    """The process. That requests are lost is no news here: `on_error` counts what else goes wrong."""
    logging.getLogger("giqaymu").setLevel(logging.CRITICAL)
    process = Process(address, name, int(seed), int(times), int(pause), Path(folder), kind)
    process.run()
    print("quiet", flush=True)
    sys.stdin.readline()
    print(json.dumps(process.report()), flush=True)
    process.rep.close()


if __name__ == "__main__":
    main(*sys.argv[1:])
