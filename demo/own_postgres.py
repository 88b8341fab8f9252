"""A PostgreSQL of one's own, in a temporary folder, over a Unix socket in it alone. It is ended and removed at the end.

As root it is run by the user postgres, since PostgreSQL refuses to be run by root. `fsync` is off: what it has written
outlives each of its processes, but not the machine's power, and the folder doesn't either.
"""

from __future__ import annotations

import contextlib
import importlib.util
import os
import shutil
import signal
import subprocess
import tempfile
import time
import uuid
from pathlib import Path
from types import TracebackType
from typing import Any

WAIT = 60.0
"""How many seconds the start, and the end, may take."""


def lacks() -> str | None:
    """What is missing here for PostgreSQL; None: nothing."""
    if importlib.util.find_spec("psycopg2") is None:
        return "psycopg2 (Debian: python3-psycopg2)"
    if _programs() is None:
        return "PostgreSQL (Debian: postgresql)"
    return None


def _programs() -> Path | None:
    """The folder with `initdb` and `postgres`, of the newest version."""
    found = shutil.which("initdb")
    folders = [Path(found).parent] if found else []
    folders += sorted(Path("/usr/lib/postgresql").glob("*/bin"), key=lambda path: path.parent.name, reverse=True)
    return next((folder for folder in folders if (folder / "postgres").exists()), None)


class OwnPostgres:
    """The server; it runs until `close`."""

    def __init__(self) -> None:
        programs = _programs()
        if programs is None:
            raise FileNotFoundError("PostgreSQL's programs are not there")
        self._user: dict[str, Any] = {"user": "postgres", "group": "postgres"} if os.getuid() == 0 else {}
        self._room = Path(tempfile.mkdtemp(prefix="pg"))
        try:
            if self._user:
                shutil.chown(self._room, **self._user)
            options = ["--no-sync", "--auth=trust", "-U", "postgres", "-E", "UTF8", "--locale=C.UTF-8"]
            self._run(programs / "initdb", *options)
            self._process = self._start(programs)
            self._wait_until_it_is_there()
        except BaseException:
            self.close()
            raise

    @property
    def _data(self) -> Path:
        return self._room / "data"

    def _run(self, *words: str | Path) -> None:
        subprocess.run([*words, "-D", self._data], check=True, timeout=WAIT, stdout=subprocess.DEVNULL, **self._user)

    def _start(self, programs: Path) -> subprocess.Popen[bytes]:
        settings = ["-c", "listen_addresses=", "-c", "log_min_messages=fatal", "-c", "fsync=off"]
        command: list[str | Path] = [programs / "postgres", "-D", self._data, "-k", self._room, *settings]
        with (self._room / "log").open("wb") as log:
            process: subprocess.Popen[bytes] = subprocess.Popen(
                command, stdin=subprocess.DEVNULL, stdout=log, stderr=log, **self._user
            )
            return process

    def _wait_until_it_is_there(self) -> None:
        import psycopg2  # type: ignore[import]

        end = time.monotonic() + WAIT
        while True:
            try:
                psycopg2.connect(self.url()).close()
                return
            except psycopg2.OperationalError:
                if time.monotonic() > end or self._process.poll() is not None:
                    raise
                time.sleep(0.05)

    def url(self, database: str = "postgres") -> str:
        """What a program connects by."""
        return f"postgresql:///{database}?host={self._room}&user=postgres"

    def statement(self, sql: str) -> list[tuple[Any, ...]]:
        """What a statement answers."""
        import psycopg2

        with contextlib.closing(psycopg2.connect(self.url())) as connection:
            connection.autocommit = True
            with connection.cursor() as cursor:
                cursor.execute(sql)
                return list(cursor.fetchall()) if cursor.description else []

    def new_database(self) -> str:
        """A new database: its URL."""
        name = f"d{uuid.uuid4().hex}"
        self.statement(f"create database {name}")
        return self.url(name)

    def close(self) -> None:
        """Ends it at once, since nothing in its folder is kept, and removes the folder."""
        process = getattr(self, "_process", None)
        if process is not None and process.poll() is None:
            process.send_signal(signal.SIGQUIT)
            try:
                process.wait(WAIT)
            except subprocess.TimeoutExpired:
                process.kill()
                process.wait()
        shutil.rmtree(self._room, ignore_errors=True)

    def __enter__(self) -> OwnPostgres:
        return self

    def __exit__(
        self, kind: type[BaseException] | None, error: BaseException | None, trace: TracebackType | None
    ) -> None:
        self.close()
