"""Groups on the disk: a folder in which a group outlives its process.

A process has two files of a group in the folder. `GROUP.lock` it holds by `flock` while it lives. `GROUP.journal` has
a line for the group's head, and one for each entry that changed it (`journal.py`): eight hexadecimal digits, the CRC-32
of what follows, a blank, and JSON. Reading stops at the first line that is not so: what was being written when its
process died was not acknowledged. From time to time the file is written anew and renamed over (`GROUP.new` until then).

What `flock` gives: the kernel lets go of the lock when the last copy of its file descriptor is closed, so however the
process ends, by `kill -9` too. A child that was forked and didn't exec has a copy, and holds the lock on. It is advice
between processes that use this module, on one machine: keep the folder on a local file system.

What `fsync` gives: with durability `fsync` an entry is on the disk before it is acknowledged, as far as the file
system and the disk do what they say. After an `fdatasync` that failed nobody knows which pages of the file are on the
disk, and Linux may call them clean: so the file is not used any more, and the journal goes on in a new one. With
`write` an entry is the kernel's: a process that is killed loses nothing, a machine that loses its power may. Killing
processes was tried; a loss of power was not.

The lock of the group's changes (`groups.py`) is held over each call of a `JournalFile` but `settle`. That has a lock of
its own, so that threads which wait for the disk share one `fdatasync` while others append.
"""

from __future__ import annotations

import contextlib
import fcntl
import json
import os
import shutil
import threading
import zlib
from collections.abc import Callable, Iterable, Iterator
from dataclasses import dataclass, field
from pathlib import Path
from typing import Any, Literal, NamedTuple

from .edge import json_bytes
from .journal import Entry, Journal, Mutation, PendingMutation, Response, State, mutation_of, response_of

Json = Any
Durability = Literal["fsync", "write"]

LONG = 1 << 20
"""From how many bytes on a file is written anew where that is worth it."""
WORTH = 3
"""How many times its last whole size a file has to have for that."""


class Identity(NamedTuple):
    """By what the server knows a group, and a process that it is its own."""

    group: str
    profile: str
    schema: str


@dataclass(frozen=True)
class SetAside:
    """Mutations that can't be sent any more, or a file that can't be read: what became of them.

    `path` is the file in which they are kept, and that no process looks at. `why` is the server's error or status,
    or what is wrong with the file. Making the mutations again under new IDs may do them twice: ask the user.
    """

    path: Path
    why: str
    mutations: tuple[PendingMutation, ...]


def _line(text: bytes) -> bytes:
    return b"%08x %s\n" % (zlib.crc32(text), text)


def line_of(entry: Entry) -> bytes:
    """The line of an entry."""
    if isinstance(entry, Mutation):
        return _line(b'{"mutation":%b}' % entry.text())
    return _line(b'{"response":%s}' % entry.body())


def _head_line(identity: Identity) -> bytes:
    return _line(json_bytes({"giqaymu": 1, **identity._asdict()}))


def _value(line: bytes) -> Json:
    """The JSON of a line; ValueError where it is none that was written as a whole."""
    if len(line) < 10 or line[8:9] != b" " or int(line[:8], 16) != zlib.crc32(line[9:]):
        raise ValueError("the line's checksum is another")
    return json.loads(line[9:])


def _entry(value: Json) -> Entry:
    return mutation_of(value["mutation"]) if "mutation" in value else response_of(value["response"])


def _identity(value: Json) -> Identity:
    identity = Identity(value["group"], value["profile"], value["schema"])
    if not all(isinstance(text, str) for text in identity):
        raise ValueError("an ID is no text")
    return identity


def _locked(path: Path) -> int:
    """Makes the lock file and locks it.

    Another process may have seen the new file, locked it first and taken it away as one that nobody holds. So the file
    that was locked has to be the one of that name; else it is made anew.
    """
    while True:
        file = os.open(path, os.O_CREAT | os.O_RDWR, 0o600)
        fcntl.flock(file, fcntl.LOCK_EX)
        if _is_of_name(file, path):
            return file
        os.close(file)


def _lock_free(path: Path) -> int | None:
    """Locks a lock file that is there; None where a process holds it, or it is gone."""
    try:
        file = os.open(path, os.O_RDWR)
    except FileNotFoundError:
        return None
    try:
        fcntl.flock(file, fcntl.LOCK_EX | fcntl.LOCK_NB)
    except OSError:
        os.close(file)
        return None
    if not _is_of_name(file, path):
        os.close(file)
        return None
    return file


def _is_of_name(file: int, path: Path) -> bool:
    with contextlib.suppress(FileNotFoundError):
        return os.fstat(file).st_ino == os.stat(path).st_ino
    return False


def _write(file: int, data: bytes) -> None:
    """Writes all of it: the kernel may take less at once, and says why at the next call."""
    view = memoryview(data)
    while view:
        view = view[os.write(file, view) :]


@dataclass
class Left:
    """What a process left that lives no more. Its lock is held until it is adopted, let go or removed."""

    path: Path
    lock: int
    identity: Identity | None = None
    entries: list[Entry] = field(default_factory=list)
    length: int = 0
    """How many bytes its whole lines have."""
    least: int = 0
    """How many of them were there when the file was written as a whole: up to its first response."""
    is_foreign: bool = False
    """Whether another version of this module wrote it: then it is left alone."""
    damage: str | None = None
    """What is wrong, where more can't be read than a last line that was cut."""

    def state(self) -> State:
        """The group's state."""
        return Journal(ordered=False, entries=self.entries).state

    def let_go(self) -> None:
        """Another process may take it."""
        os.close(self.lock)

    def remove(self) -> None:
        """Its files go."""
        for suffix in (".journal", ".new", ".lock"):
            self.path.with_suffix(suffix).unlink(missing_ok=True)
        os.close(self.lock)

    def keep_damaged(self) -> SetAside | None:
        """Copies a journal that can't be read to its end to a file that no process looks at; what is whole is used."""
        if self.damage is None:
            return None
        kept = self.path.with_suffix(".damaged")
        shutil.copy(self.path, kept)
        return SetAside(kept, self.damage, ())

    def set_aside(self, why: str, mutations: Iterable[Mutation] = ()) -> SetAside:
        """Keeps its journal in a file that no process looks at."""
        kept = self.path.with_suffix(".refused")
        os.replace(self.path, kept)
        self.remove()
        return SetAside(kept, why, tuple(mutation.told() for mutation in mutations))


def _read(left: Left) -> None:
    """Reads the journal, as far as its lines are whole."""
    data = left.path.read_bytes() if left.path.exists() else b""
    *lines, _ = data.split(b"\n")
    for number, line in enumerate(lines):
        try:
            value = _value(line)
            if number == 0:
                left.is_foreign = value["giqaymu"] != 1
                left.identity = _identity(value)
            else:
                left.entries.append(_entry(value))
        except (ValueError, KeyError, TypeError, AttributeError, RecursionError) as wrong:
            # A last line that is wrong is one that a machine lost: it was not acknowledged, or never written whole.
            if number < len(lines) - 1:
                left.damage = f"line {number + 1} of {len(lines)}: {wrong}"
            return
        left.length += len(line) + 1
        if number == 0 or len(left.entries) == 1 and isinstance(left.entries[0], Response):
            left.least = left.length


def left_behind(folder: Path) -> Iterator[Left]:
    """What processes left that live no more, one after the other. Each is this process's until it says otherwise."""
    for lock_path in sorted(folder.glob("*.lock")):
        lock = _lock_free(lock_path)
        if lock is None:
            continue
        left = Left(lock_path.with_suffix(".journal"), lock)
        _read(left)
        if left.is_foreign:
            left.let_go()
        else:
            yield left


class JournalFile:
    """The file of a group that lives."""

    def __init__(self, path: Path, lock: int, identity: Identity, durability: Durability) -> None:
        self._path, self._lock, self._identity, self._durability = path, lock, identity, durability
        self._file = -1
        self._length = self._least = 0
        self._is_torn = True  # there is no file yet: the first entry makes it
        self._written = self._synced = 0
        self._syncing = threading.Lock()

    @classmethod
    def new(cls, folder: Path, identity: Identity, durability: Durability) -> JournalFile:
        """A file of a new group; it is made with the first entry."""
        path = folder / f"{identity.group}.journal"
        return cls(path, _locked(path.with_suffix(".lock")), identity, durability)

    @classmethod
    def adopted(cls, left: Left, durability: Durability) -> JournalFile:
        """Goes on with the file that a process left, without the line that was cut when it died."""
        assert left.identity is not None
        made = cls(left.path, left.lock, left.identity, durability)
        made._file = os.open(left.path, os.O_WRONLY | os.O_APPEND)
        os.ftruncate(made._file, left.length)
        made._length, made._least = left.length, left.least
        made._is_torn = False
        return made

    def append(self, entry: Entry, whole: Callable[[], Iterable[Entry]]) -> int:
        """Appends an entry; `settle` of what this answers waits until it is safe.

        Raises OSError where it could not be written. Then the file is cut back, since behind a torn line nothing is
        read, and the next entry writes the whole group anew: `whole` answers all of its entries, this one too.
        """
        if self._is_torn:
            return self.replace(whole())
        self._check_open()
        data = line_of(entry)
        try:
            _write(self._file, data)
        except OSError:
            self._is_torn = True
            os.ftruncate(self._file, self._length)
            raise
        self._length += len(data)
        self._written += 1
        return self._written

    def is_long(self) -> bool:
        """Whether it is worth to write the file anew, if that makes it shorter."""
        return self._length > max(LONG, WORTH * self._least)

    def replace(self, whole: Iterable[Entry]) -> int:
        """Writes the group to a new file, which takes the old one's place as a whole. Answers as `append` does."""
        self._check_open()
        data = b"".join([_head_line(self._identity), *map(line_of, whole)])
        new = self._path.with_suffix(".new")
        file = os.open(new, os.O_CREAT | os.O_TRUNC | os.O_WRONLY | os.O_APPEND, 0o600)
        try:
            _write(file, data)
            if self._durability == "fsync":
                os.fdatasync(file)
            with self._syncing:
                os.rename(new, self._path)
                self._sync_folder()
                if self._file >= 0:
                    os.close(self._file)
                self._file = file
                self._written += 1
                self._synced = self._written
        except OSError:
            if self._file != file:
                os.close(file)
            self._is_torn = True
            raise
        self._length = self._least = len(data)
        self._is_torn = False
        return self._written

    def _check_open(self) -> None:
        if self._lock < 0:
            raise OSError("the journal is closed: another process may have it")

    def _sync_folder(self) -> None:
        """Else the new name may not outlive a loss of power."""
        if self._durability == "fsync":
            folder = os.open(self._path.parent, os.O_RDONLY)
            try:
                os.fsync(folder)
            finally:
                os.close(folder)

    def settle(self, mark: int) -> None:
        """Waits until all up to the mark is safe. Raises OSError where the disk refuses: then `replace` comes next."""
        if self._durability != "fsync" or self._synced >= mark:
            return
        with self._syncing:
            if self._synced >= mark or self._file < 0:
                return
            if self._is_torn:
                raise OSError("an earlier write or sync failed")  # a sync that succeeds now says nothing of that
            written = self._written
            try:
                os.fdatasync(self._file)
            except OSError:
                self._is_torn = True
                raise
            self._synced = written

    def close(self) -> None:
        """The files stay: the next process goes on with them. The lock is let go."""
        with self._syncing:
            if self._file >= 0 and self._durability == "fsync" and self._synced < self._written:
                with contextlib.suppress(OSError):
                    os.fdatasync(self._file)
            if self._lock >= 0 and not self._path.exists():
                self._path.with_suffix(".lock").unlink(missing_ok=True)  # nothing was made
            for file in (self._file, self._lock):
                if file >= 0:
                    os.close(file)
            self._file = self._lock = -1

    def set_aside(self, why: str, mutations: Iterable[Mutation]) -> SetAside | None:
        """Ends the file of a group that the server does not know: kept aside where something was pending, else gone."""
        if self._lock < 0:
            return None
        with self._syncing:
            if self._file >= 0:
                os.close(self._file)
            left, mutations = Left(self._path, self._lock), tuple(mutations)
            self._file = self._lock = -1
        if mutations and self._path.exists():
            return left.set_aside(why, mutations)
        left.remove()
        return None
