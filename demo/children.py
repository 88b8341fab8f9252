"""Processes that the demo and the tests start: asked by lines, answering by lines, and ended whatever happens."""

from __future__ import annotations

import json
import subprocess
import sys
import threading
import urllib.error
import urllib.request
from pathlib import Path
from typing import Any

HERE = Path(__file__).resolve().parent
WAIT = 30.0
"""How many seconds a line or a response is waited for, at the most."""

Json = Any


class Failed(Exception):
    """Something did not end as it has to."""


class Child:
    """A process. It ends with its standard input too, so that none is left where this process is killed."""

    def __init__(self, *words: str | Path) -> None:
        self.words = [str(word) for word in words]
        self.process = subprocess.Popen(self.words, stdin=subprocess.PIPE, stdout=subprocess.PIPE, text=True)

    def line(self, seconds: float = WAIT) -> str:
        """The next line that it prints. `Failed` where none comes: then it is ended."""
        assert self.process.stdout is not None
        limit = threading.Timer(seconds, self.process.kill)
        limit.daemon = True
        limit.start()
        try:
            line = self.process.stdout.readline()
        finally:
            limit.cancel()
        if not line:
            raise Failed(f"{' '.join(self.words)}: ended, or took too long")
        return line.rstrip("\n")

    def ask(self, line: str = "") -> None:
        """Writes a line."""
        assert self.process.stdin is not None
        self.process.stdin.write(line + "\n")
        self.process.stdin.flush()

    def kill(self) -> None:
        """Ends it at once (SIGKILL), if it has not ended, and waits for its end."""
        self.process.kill()
        self.process.communicate()

    def close(self) -> None:
        """Ends its standard input, waits for its end, and kills it where that takes too long."""
        try:
            self.process.communicate(timeout=5)
        except subprocess.TimeoutExpired:
            self.kill()


class ServerChild(Child):
    """A server on trial. `address` is where it is."""

    def __init__(self, database: str | Path, port: int = 0) -> None:
        super().__init__(sys.executable, HERE / "server", database, "--port", str(port), "--trial", "--child")
        self.address = self.line()
        self.port = int(self.address.rpartition(":")[2])

    def post(self, path: str, body: Json) -> tuple[int, Json]:
        """The status and the body of the response; bytes are sent as they are."""
        data = body if isinstance(body, bytes) else json.dumps(body).encode()
        request = urllib.request.Request(self.address + path, data, {"content-type": "application/json"})
        try:
            with urllib.request.urlopen(request, timeout=WAIT) as response:
                return response.status, json.load(response)
        except urllib.error.HTTPError as error:
            with error:
                return error.code, json.load(error)

    def trial(self, **words: Json) -> None:
        """What the server loses from now on."""
        self.post("/trial", words)

    def report(self) -> Json:
        """Rows, last IDs, counts."""
        with urllib.request.urlopen(self.address + "/rows", timeout=WAIT) as response:
            return json.load(response)
