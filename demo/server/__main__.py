"""The server's command line: `demo/server --help`."""

from __future__ import annotations

import argparse
import logging
import signal
import sys
import threading
from pathlib import Path

HERE = Path(__file__).resolve().parent
sys.path[:0] = [str(HERE.parent), str(HERE.parent.parent / "hosts" / "python" / "src")]

import todo  # noqa: E402
from server.databases import Counts, Database, Unavailable  # noqa: E402
from server.pokes import Pokes  # noqa: E402
from server.space import Space  # noqa: E402
from server.web import Server  # noqa: E402

PORT = 8787


def arguments(words: list[str]) -> argparse.Namespace:
    """What the command line says."""
    parser = argparse.ArgumentParser(
        prog="python3 demo/server",
        description="A Replicache server on 127.0.0.1. It prints its address, and ends by SIGINT or SIGTERM.",
    )
    parser.add_argument("database", help="a file of SQLite, or postgresql://..: what libpq connects to")
    parser.add_argument("--port", type=int, default=PORT, help=f"0: a free one (default: {PORT})")
    parser.add_argument("--authorization", default="", help="the header that each request needs")
    parser.add_argument("--trial", action="store_true", help="with GET /rows and POST /trial, for tests")
    parser.add_argument("--child", action="store_true", help="ends when its standard input does, too")
    return parser.parse_args(words)


def database_of(name: str, counts: Counts) -> Database:
    """The database of this name."""
    if name.startswith(("postgresql:", "postgres:")):
        from server.postgres import Postgres  # psycopg2 is needed here alone

        return Postgres(name, counts)
    from server.sqlite import Sqlite

    return Sqlite(Path(name))


def end_with_input(ended: threading.Event) -> None:
    """Waits for the end of the standard input."""
    sys.stdin.read()
    ended.set()


def serve(words: argparse.Namespace) -> None:
    """Serves until it is told to end."""
    counts, pokes, ended = Counts(), Pokes(), threading.Event()
    database = database_of(words.database, counts)
    database.listen(pokes.poke)
    space = Space(database, todo.MUTATORS, counts)
    server = Server(space, pokes, counts, port=words.port, authorization=words.authorization, on_trial=words.trial)
    for number in (signal.SIGINT, signal.SIGTERM):
        signal.signal(number, lambda *_: ended.set())
    threading.Thread(target=server.serve_forever, daemon=True).start()
    if words.child:
        threading.Thread(target=end_with_input, args=(ended,), daemon=True).start()
    print(server.address, flush=True)
    ended.wait()
    pokes.end()
    server.shutdown()
    server.server_close()
    database.close()


def main() -> int:
    """The command."""
    logging.basicConfig(format="server: %(levelname)s %(message)s")
    words = arguments(sys.argv[1:])
    try:
        serve(words)
    except Unavailable as error:
        print(f"demo/server: {words.database}: {error}", file=sys.stderr)
        return 1
    except OSError as error:
        print(f"demo/server: port {words.port}: {error}; --port names another one", file=sys.stderr)
        return 1
    return 0


if __name__ == "__main__":
    sys.exit(main())
