"""The client half of Replicache for one client group, over the library that `hosts/build` makes.

A group is opened with so many places. A client sits down at a place, makes its calls and leaves; then another one may
sit there. Places of one group are used by threads at the same time; no call waits for another place, starts a thread
or opens a socket. The program carries the bodies of requests and responses:

    group = Group(GROUP, profile="p1", schema="s1", rules=RULES, places=2)
    anna, bert = group.places
    anna.sit(ANNA)
    anna.mutate("add", {"id": "x", "text": "milk"})
    post("/push", anna.push())
    ticket = anna.begin_pull()
    anna.end_pull(ticket, post("/pull", ticket.body))
    anna.get("todo/x")

The library is the file that the variable GIQAYMU_LIBRARY names, or else `libgiqaymu.so` beside this module, where the
wheel has it, or else what `hosts/build` made in the tree that this module is read from.
"""

from __future__ import annotations

import contextlib
import ctypes
import enum
import functools
import json
import os
import threading
import time
import uuid
import weakref
from collections.abc import Callable, Iterable, Mapping
from dataclasses import dataclass
from pathlib import Path
from types import TracebackType
from typing import Any, Literal, NamedTuple

__all__ = [
    "AskedRun",
    "Del",
    "Diff",
    "Draft",
    "Ended",
    "Group",
    "Json",
    "Mutator",
    "Pending",
    "Place",
    "Put",
    "Reading",
    "Refusal",
    "Refuse",
    "Row",
    "STACK",
    "Slots",
    "Ticket",
    "Version",
    "VersionKind",
    "Watch",
    "Why",
    "version",
]

STACK = 262144
"""How many bytes of stack were enough for each call that was tried. That is measured, not proved."""

Json = Any
"""None, bool, int, str, or a list or dict of such: what `json` reads and writes."""


class Why(enum.IntEnum):
    """Why a call was refused; the numbers of `giqaymu.h`, which says what to do about each."""

    # by tools/refusals: python of all
    NO_MEMORY = -1
    MOVED = -2
    BUSY = -3
    GONE = -4
    FULL = -5
    STAMPS = -6
    STALE = -7
    NO_MUTATOR = -8
    REFUSED = -9
    NOT_JSON = -10
    BAD_SHAPE = -11
    NOT_WHOLE = -12
    OVERTAKEN = -13
    COOKIE_WENT_BACK = -14
    COOKIE_NOT_NEW = -15
    ID_WENT_BACK = -16
    STATE_NOT_FOUND = -17
    VERSION_NOT_SUPPORTED = -18
    NO_SEAT = -19
    CLOSED = -20
    NOT_UTF8 = -101
    BAD_UUID = -102
    OUT_OF_RANGE = -103
    NO_TICKET = -104
    NO_WATCH = -105
    BAD_RULES = -106
    IN_USE = -107
    ASKS = -108
    NO_CLIENT = -109
    NO_PLACE = -110
    NOT_ASKED = -111
    READS = -112
    NOT_READ = -113
    BAD_VERSION = -201
    # tools/refusals: end

    @property
    def message(self) -> str:
        """What happened, and what the caller can do about it."""
        return _MESSAGES[self]


class VersionKind(enum.IntEnum):
    """Which version a server does not support: the code of `Why.VERSION_NOT_SUPPORTED`."""

    UNKNOWN = 0
    PUSH = 1
    PULL = 2
    SCHEMA = 3


class Refusal(Exception):
    """A call was refused. Nothing was changed, but that `Why.STATE_NOT_FOUND` closes the group.

    `code` is that of the mutator where `why` is `Why.REFUSED`, and a `VersionKind` where it is
    `Why.VERSION_NOT_SUPPORTED`. `fault` says what is wrong with rules where it is `Why.BAD_RULES`, and where:
    `/add/0/2: unknown word` (`docs/RULES.md`). It is empty where memory was refused.
    """

    def __init__(self, why: Why, code: int = 0, fault: str = "") -> None:
        super().__init__(why, code, fault)
        self.why = why
        self.code = code
        self.fault = fault

    def __str__(self) -> str:
        code = VersionKind(self.code).name.lower() if self.why is Why.VERSION_NOT_SUPPORTED else self.code
        code_told, fault_told = f" ({code})" if code else "", f": {self.fault}" if self.fault else ""
        return f"{self.why.name}: {self.why.message}{code_told}{fault_told}"


# What happened, and what the caller can do about it.
_MESSAGES = {
    # by tools/refusals: python messages of all
    Why.NO_MEMORY: "memory was refused: free some and call again",
    Why.MOVED: "other clients changed the group first, as often as the call tries: call again",
    Why.BUSY: "a slot or a pin was lost to other clients, as often as the call tries: call again",
    Why.GONE: "a slot was given again while it was looked for: call again",
    Why.FULL: "no slot is free for the change: close readers, pull what confirms or clears, or open a larger group",
    Why.STAMPS: "the group has too few stamps left: open a new group",
    Why.STALE: "the client's last id is not the one that the group has: refresh it and call again",
    Why.NO_MUTATOR: "no mutator has this name",
    Why.REFUSED: "the mutator refused, with the code",
    Why.NOT_JSON: "the bytes are no JSON text, or one that nests too deep",
    Why.BAD_SHAPE: "a field is missing, of a wrong type or out of range",
    Why.NOT_WHOLE: "a number is not whole, or does not fit 64 bits",
    Why.OVERTAKEN: "another pull was applied since this one began: begin a new one",
    Why.COOKIE_WENT_BACK: "the response's cookie is below the group's: begin a new pull",
    Why.COOKIE_NOT_NEW: "the cookie is as high as the group's, but the response brings something: begin a new pull",
    Why.ID_WENT_BACK: "the response confirms less of a client than was confirmed: begin a new pull",
    Why.STATE_NOT_FOUND: "the server does not know the client group, which is closed by this: open a new one",
    Why.VERSION_NOT_SUPPORTED: "the server does not support the version of this kind",
    Why.NO_SEAT: "all seats are out: give one back",
    Why.CLOSED: "the group is closed, since the server does not know it: open a new one",
    Why.NOT_UTF8: "the bytes are not UTF-8",
    Why.BAD_UUID: "the text is no UUID (RFC 9562)",
    Why.OUT_OF_RANGE: "a number is none of those that it may be",
    Why.NO_TICKET: "the place has no ticket of this number: begin a pull",
    Why.NO_WATCH: "the place has no watch of this number: begin a watch",
    Why.BAD_RULES: "the rules are faulty",
    Why.IN_USE: "a client sits at the place: let it leave first",
    Why.ASKS: "a change of the place asks for a run of a mutator: do it, or give the change up",
    Why.NO_CLIENT: "no client sits at the place: sit down first",
    Why.NO_PLACE: "the place is closed: open a group",
    Why.NOT_ASKED: "no change of the place asks for a run: mutate, or end a pull",
    Why.READS: "a reading of the place is open: end it first",
    Why.NOT_READ: "no reading of the place is open: begin one",
    Why.BAD_VERSION: "the library is of another version than what calls it: build both of one version",
    # tools/refusals: end
}


class Refuse(Exception):
    """A mutator of the program's own raises it to refuse, with a code of its own."""

    def __init__(self, code: int) -> None:
        super().__init__(code)
        self.code = _within("code", code, 2**32 - 1)


class Ended(enum.Enum):
    """How a pull ended."""

    APPLIED = 0
    """What the server confirmed is pending no more, and the rest was run again on the server's map."""
    SAME = 1
    """The response brought nothing."""


class Row(NamedTuple):
    """A key and its value."""

    key: str
    value: Json


class Diff(NamedTuple):
    """One difference of a watch (Replicache: `Diff`): `op` is add, change or del; a value that is not there is None."""

    op: str
    key: str
    old_value: Json
    new_value: Json


class Put(NamedTuple):
    """A write of a run: the key has the value."""

    key: str
    value: Json


class Del(NamedTuple):
    """A write of a run: the key is not there, whether or not it was."""

    key: str


class Pending(NamedTuple):
    """A pending mutation."""

    client: str
    id: int
    name: str


class Slots(NamedTuple):
    """How many slots of a group are free."""

    ordinary: int
    """A change may take these."""
    all: int
    """An end of a pull that leaves nothing pending may take these: the ordinary ones, and those reserved for it."""
    retired: int
    """These were let go and not given since: a change takes each that no older reader holds."""


@dataclass(frozen=True)
class Ticket:
    """A pull that a client began, and the body of its request."""

    body: bytes
    _number: int
    _client: object


@dataclass(frozen=True)
class Watch:
    """A watch of rows, which its client polls until it gives it up, or leaves."""

    _number: int
    _client: object


@dataclass(frozen=True)
class AskedRun:
    """A run of a mutator of the program's own that a change asks for.

    What it does has to depend on name, arguments, reason and the run's map alone; the rest is told for logs.
    """

    name: str
    args: Json
    reason: Literal["initial", "rebase"]
    client_id: str
    mutation_id: int
    timestamp: int


class _What(enum.IntEnum):
    """Which call is made: `enum giq_what`."""

    SIT = 0
    LEAVE = 1
    GET = 2
    HAS = 3
    SCAN = 4
    PENDING = 5
    COOKIE = 6
    CLOSED = 7
    REFRESH = 8
    PUSH = 9
    BEGIN_PULL = 10
    FORGET_TICKET = 11
    END_PULL = 12
    MUTATE = 13
    WATCH = 14
    POLL = 15
    ASKED_NAME = 16
    ASKED_ARGS = 17
    DRAFT_GET = 18
    DRAFT_HAS = 19
    DRAFT_SCAN = 20
    DRAFT_PUT = 21
    DRAFT_DEL = 22
    RAN = 23
    GIVE_UP = 24
    SLOTS = 25
    BEGIN_READ = 26
    END_READ = 27
    MOMENT = 28
    PULLED_GET = 29
    PULLED_SCAN = 30
    UNWATCH = 31
    ASKED_RUN = 32
    POLL_CHANGES = 33
    DRAFT_WRITES = 34


# The calls that ask what the group is, at one moment, which is told with the answer.
_ASKING = frozenset(
    [
        _What.GET,
        _What.HAS,
        _What.SCAN,
        _What.PENDING,
        _What.COOKIE,
        _What.CLOSED,
        _What.PUSH,
        _What.PULLED_GET,
        _What.PULLED_SCAN,
    ]
)


class Version(NamedTuple):
    """A version of the library; with another major or minor number it is refused with `Why.BAD_VERSION`."""

    major: int
    minor: int
    patch: int
    proved: bool
    """Whether the library was built from its proof. It says so itself."""


_CALLED, _UNPROVED = 10200, 0x80000000
_NONE, _YES, _ASKED = 1, 2, 3
_RAN, _RAN_REFUSED, _RAN_UNKNOWN = 0, 1, 2
_ANY, _AT, _AFTER = 0, 1, 2
_MAX = 2**64 - 1


class _Handle(ctypes.Structure):
    """`giq_place`."""

    _fields_ = [("at", ctypes.c_void_p), ("is_open", ctypes.c_uint64)]


class _Answer(ctypes.Structure):
    """`giq_answer`."""

    _fields_ = [
        ("at", ctypes.c_void_p),
        ("len", ctypes.c_size_t),
        ("number", ctypes.c_uint64),
        ("code", ctypes.c_uint32),
    ]


class _Told(NamedTuple):
    """What a call told; `returned` is 0 or above."""

    returned: int
    bytes: bytes
    number: int


def _library_file() -> Path:
    here = Path(__file__).resolve()
    inside = here.with_name("libgiqaymu.so")
    built = here.parents[3] / "out" / "libgiqaymu.so"
    if not inside.exists() and not built.exists():
        raise FileNotFoundError(f"there is no {inside} and no {built}: run hosts/build, or set GIQAYMU_LIBRARY")
    return inside if inside.exists() else built


def _version_of(number: int) -> Version:
    """The version of a number, as `giq_version` answers it."""
    plain = number & ~_UNPROVED
    return Version(plain // 10000, plain // 100 % 100, plain % 100, number & _UNPROVED == 0)


@functools.cache
def _library() -> ctypes.CDLL:
    library = ctypes.CDLL(os.environ.get("GIQAYMU_LIBRARY") or str(_library_file()))
    library.giq_version.argtypes = []
    library.giq_version.restype = ctypes.c_uint32
    if _version_of(library.giq_version())[:2] != _version_of(_CALLED)[:2]:
        raise Refusal(Why.BAD_VERSION)
    text = [ctypes.c_char_p, ctypes.c_size_t]
    place, u32, u64 = ctypes.POINTER(_Handle), ctypes.c_uint32, ctypes.c_uint64
    library.giq_open.argtypes = [*text, *text, *text, *text, u32, u32, place, ctypes.c_size_t]
    library.giq_open.restype = ctypes.c_int32
    library.giq_call.argtypes = [place, u32, u32, u64, *text, *text, ctypes.POINTER(_Answer)]
    library.giq_call.restype = ctypes.c_int32
    library.giq_close.argtypes = [place]
    library.giq_close.restype = None
    library.giq_rules_fault.argtypes = [*text, *text]
    library.giq_rules_fault.restype = ctypes.c_int64
    return library


def version() -> Version:
    """The version of the library that is loaded."""
    return _version_of(_library().giq_version())


def _rules_fault(rules: bytes) -> str:
    """What is wrong with rules; nothing where memory was refused, too."""
    length = _library().giq_rules_fault(rules, len(rules), b"", 0)
    text = ctypes.create_string_buffer(max(length, 0))
    told = _library().giq_rules_fault(rules, len(rules), text, len(text))
    return text.raw.decode() if told == length else ""


def json_bytes(value: Json) -> bytes:
    """A value as compact JSON. ValueError where a number is none that JSON has."""
    return json.dumps(value, ensure_ascii=False, allow_nan=False, separators=(",", ":")).encode()


def _bytes(name: str, given: bytes) -> bytes:
    """The bytes; ctypes doesn't say which argument is none."""
    if not isinstance(given, bytes):
        raise TypeError(f"{name} is to be bytes, and is {type(given).__name__}")
    return given


def _within(name: str, number: int, most: int) -> int:
    """The number; ctypes would cut one that does not fit."""
    if not 0 <= number <= most:
        raise ValueError(f"{name} is not from 0 to {most}: {number}")
    return number


class _Calls:
    """What makes calls."""

    def _call(self, what: _What, m: int = 0, n: int = 0, a: bytes = b"", b: bytes = b"") -> _Told:
        raise NotImplementedError

    def _value(self, what: _What, key: str, default: Json) -> Json:
        told = self._call(what, a=key.encode())
        return default if told.returned == _NONE else json.loads(told.bytes)

    def _is(self, what: _What, key: str = "") -> bool:
        return self._call(what, a=key.encode()).returned == _YES

    def _scan(self, what: _What, prefix: str, at: str | None, after: str | None, limit: int | None) -> _Told:
        if at is not None and after is not None:
            raise ValueError("a scan begins at a key or after one")
        kind, start = (_AT, at) if at is not None else (_AFTER, after) if after is not None else (_ANY, "")
        most = _MAX if limit is None else _within("limit", limit, _MAX - 1)
        return self._call(what, kind, most, prefix.encode(), start.encode())


class _Queries(_Calls):
    """The calls that ask what the group is."""

    def get(self, key: str, default: Json = None) -> Json:
        """The value at the key, or the default where there is none."""
        return self._value(_What.GET, key, default)

    def has(self, key: str) -> bool:
        """Whether the key is there."""
        return self._is(_What.HAS, key)

    def scan(
        self, prefix: str = "", *, at: str | None = None, after: str | None = None, limit: int | None = None
    ) -> list[Row]:
        """The rows whose keys begin with the prefix, in the order of their keys' bytes.

        They begin at the key `at`, or after the key `after`; there are `limit` at the most.
        """
        return _rows(self._scan(_What.SCAN, prefix, at, after, limit).bytes)

    def pulled_get(self, key: str, default: Json = None) -> Json:
        """`get` of what the server last sent, without what is pending."""
        return self._value(_What.PULLED_GET, key, default)

    def pulled_scan(
        self, prefix: str = "", *, at: str | None = None, after: str | None = None, limit: int | None = None
    ) -> list[Row]:
        """`scan` of what the server last sent, without what is pending."""
        return _rows(self._scan(_What.PULLED_SCAN, prefix, at, after, limit).bytes)

    def pending(self) -> list[Pending]:
        """The pending mutations of the group, whichever client made them, the oldest first."""
        return [Pending(*one) for one in json.loads(self._call(_What.PENDING).bytes)]

    def cookie(self) -> Json:
        """The group's cookie; None before the first pull was applied."""
        return json.loads(self._call(_What.COOKIE).bytes)

    def closed(self) -> bool:
        """Whether the group is closed, since the server does not know it."""
        return self._is(_What.CLOSED)

    def push(self, skip: int = 0) -> bytes:
        """The body of a push of what is pending in the group (version 1), but for the oldest `skip` mutations.

        There is one also where no more are pending. What is pending may be other by the time of the call than `pending`
        told, unless both are asked in one reading. The answer of the push endpoint is not read by the library.
        """
        return self._call(_What.PUSH, _within("skip", skip, 2**32 - 1)).bytes

    def moment(self) -> int:
        """The number of the group's moment.

        The same number, also at another place of the group, says the same map, pending mutations and cookie; a later
        state has a greater number. It is one load: who asks before reading pays little where nothing is new.
        """
        return self._call(_What.MOMENT).number

    def read_at(self) -> int:
        """The moment at which the place's last query was answered, as `moment` counts them; 0 before the first.

        It was told with the answer, so no call is made.
        """
        raise NotImplementedError


class Place(_Queries):
    """A place at a group, at which a client sits down, makes its calls and leaves.

    Each call may raise a `Refusal`. A place that two threads use at once lets one of them wait for the other. After
    `close` each call is refused with `Why.NO_PLACE`.
    """

    def __init__(self, handle: _Handle, mutators: Mapping[str, Mutator]) -> None:
        """For `Group` alone, which opened the handle."""
        self._handle = handle
        self._giq_call = _library().giq_call
        self._mutators = mutators
        self._answer = _Answer()
        self._read_at = 0
        # A mutator of the program's own runs while its change has the place.
        self._lock = threading.RLock()
        # The client that sat down last: its tickets and watches bear it, so that those of another client are told
        # apart.
        self._client = object()
        self._finish = weakref.finalize(self, _library().giq_close, handle)

    def _call(self, what: _What, m: int = 0, n: int = 0, a: bytes = b"", b: bytes = b"") -> _Told:
        with self._lock:
            answer = self._answer
            returned = self._giq_call(self._handle, what, m, n, a, len(a), b, len(b), answer)
            if returned < 0:
                raise Refusal(Why(returned), answer.code)
            told = ctypes.string_at(answer.at, answer.len) if answer.len else b""
            if what in _ASKING:
                self._read_at = answer.number
            return _Told(returned, told, answer.number)

    def read_at(self) -> int:  # noqa: D102
        return self._read_at

    def close(self) -> None:
        """Closes the place, with the client that sits there; what the client made stays pending in the group."""
        with self._lock:
            self._finish()

    def sit(self, client: str | None = None) -> str:
        """A client of this ID, a UUID, sits down, or one of a fresh ID. Answers the ID.

        **An ID is for one life of a client**, unless its group was restored from what it was. A new group numbers the
        client's mutations from 1 again. A server that has done ten of its earlier life skips the next ten as done, and
        confirms them: they are lost, and no call says so.
        """
        client = str(uuid.uuid4()) if client is None else client
        self._call(_What.SIT, a=client.encode())
        self._client = object()
        return client

    def leave(self) -> None:
        """The client leaves; its tickets and watches are given up, and what it made stays pending."""
        self._call(_What.LEAVE)

    def reading(self) -> Reading:
        """A reading: in `with place.reading() as reading` its queries are answered as of one moment.

        It has the place so long: other threads that use it wait, and calls of this thread that are no queries are
        refused with `Why.READS`. The slots that other clients let go are kept from use meanwhile: be short.
        """
        return Reading(self)

    def slots(self) -> Slots:
        """How many slots of the group are free.

        Each slot is looked at once, one after the other, so that others may take and let go meanwhile; it takes time
        for each slot of the group.
        """
        return Slots(*json.loads(self._call(_What.SLOTS).bytes))

    def refresh(self) -> int:
        """Finds the client's last id in the group: the remedy for `Why.STALE`."""
        return self._call(_What.REFRESH).number

    def _asked(self) -> tuple[Json, bool]:
        """The mutation whose run is asked for, as a push lists it, and whether it is run for a rebase."""
        told = self._call(_What.ASKED_RUN)
        return json.loads(told.bytes), told.number == 1

    def asked_run(self) -> AskedRun:
        """The run that a change of this place asks for. Refused with `Why.NOT_ASKED` but in a mutator."""
        mutation, rebase = self._asked()
        return AskedRun(
            name=mutation["name"],
            args=mutation["args"],
            reason="rebase" if rebase else "initial",
            client_id=mutation["clientID"],
            mutation_id=mutation["id"],
            timestamp=mutation["timestamp"],
        )

    def _run(self) -> tuple[int, int]:
        """Runs the mutator that is asked for: how that ended, and the code where it refused."""
        mutation, rebase = self._asked()
        mutator = self._mutators.get(mutation["name"])
        if mutator is None:
            return _RAN_UNKNOWN, 0
        draft = Draft(self, rebase=rebase)
        try:
            mutator(draft, mutation["args"])
        except Refuse as refused:
            return _RAN_REFUSED, refused.code
        finally:
            draft._place = None
        return _RAN, 0

    def _change(self, what: _What, m: int = 0, n: int = 0, a: bytes = b"", b: bytes = b"") -> _Told:
        """Makes a change, with the runs that it asks for; one whose mutator raises is given up."""
        with self._lock:
            told = self._call(what, m, n, a, b)
            while told.returned == _ASKED:
                try:
                    ending, code = self._run()
                except BaseException:
                    self._call(_What.GIVE_UP)
                    raise
                told = self._call(_What.RAN, ending, code)
            return told

    def mutate(self, name: str, args: Json, timestamp: int | None = None) -> int:
        """Runs a mutator on the map, and answers the mutation's id; queries show it at once.

        What a mutator of the program's own raises is raised, and nothing was changed; but `Refuse` refuses, with
        `Why.REFUSED`. The timestamp is in milliseconds since 1970; without one it is now.
        """
        return self.mutate_json(name, json_bytes(args), timestamp)

    def mutate_json(self, name: str, args: bytes, timestamp: int | None = None) -> int:
        """`mutate`, with arguments that are JSON already. TypeError where they are no bytes."""
        now = time.time_ns() // 1_000_000 if timestamp is None else _within("timestamp", timestamp, _MAX)
        return self._change(_What.MUTATE, n=now, a=name.encode(), b=_bytes("args", args)).number

    def begin_pull(self) -> Ticket:
        """Begins a pull: the ticket has the body of its request (version 1). Many pulls may be under way."""
        told = self._call(_What.BEGIN_PULL)
        return Ticket(told.bytes, told.number, self._client)

    def _number_of(self, ticket: Ticket) -> int:
        if ticket._client is not self._client:
            raise Refusal(Why.NO_TICKET)
        return ticket._number

    def forget(self, ticket: Ticket) -> None:
        """Gives up a pull to which no response came. Refused with `Why.NO_TICKET` where another client began it."""
        self._call(_What.FORGET_TICKET, self._number_of(ticket))

    def end_pull(self, ticket: Ticket, response: bytes) -> Ended:
        """Ends a pull with the response's body; its ticket is given up, whatever comes.

        Refused with `Why.NO_TICKET` where another client began the pull, or it has ended. TypeError where the response
        is no bytes: then the ticket stays.
        """
        number, body = self._number_of(ticket), _bytes("response", response)
        try:
            return Ended(self._change(_What.END_PULL, number, a=body).returned)
        finally:
            with contextlib.suppress(Refusal):
                self.forget(ticket)

    def watch(
        self, prefix: str = "", *, at: str | None = None, after: str | None = None, limit: int | None = None
    ) -> Watch:
        """Watches the rows that `scan` has for the same arguments. Nothing is read."""
        return Watch(self._scan(_What.WATCH, prefix, at, after, limit).number, self._client)

    def _number_watched(self, watch: Watch) -> int:
        if watch._client is not self._client:
            raise Refusal(Why.NO_WATCH)
        return watch._number

    def poll(self, watch: Watch) -> list[Row] | None:
        """The rows of a watch the first time, and whenever they differ from those told last; else None.

        Refused with `Why.NO_WATCH` where the watch is another client's, or was given up.
        """
        told = self._call(_What.POLL, self._number_watched(watch))
        return None if told.returned == _NONE else _rows(told.bytes)

    def poll_changes(self, watch: Watch) -> list[Diff] | None:
        """What changed in the rows of a watch since they were told last, by this or by `poll`; None where nothing did.

        In the order of the keys' bytes. The first time each row is added. Refused as `poll` is.
        """
        told = self._call(_What.POLL_CHANGES, self._number_watched(watch))
        return None if told.returned == _NONE else _diffs(told.bytes)

    def unwatch(self, watch: Watch) -> None:
        """Gives a watch up, and the rows that it keeps. Its number may be given again, so don't use it any more.

        Refused with `Why.NO_WATCH` where it is another client's.
        """
        self._call(_What.UNWATCH, self._number_watched(watch))


class Reading(_Queries):
    """Queries as of one moment, that at which `with` begins. Behind it they are refused with `Why.NOT_READ`."""

    def __init__(self, place: Place) -> None:
        """For `Place` alone."""
        self._place = place
        self._is_open = False

    def __enter__(self) -> Reading:
        self._place._lock.acquire()
        try:
            self._place._call(_What.BEGIN_READ)
            self._is_open = True
        except Refusal:
            self._place._lock.release()
            raise
        except BaseException:  # an interrupt, behind which it may be open
            self._end()
            raise
        return self

    def _end(self) -> None:
        self._is_open = False
        try:
            self._place._call(_What.END_READ)
        except Refusal:
            pass  # the client has left, or the place was closed
        finally:
            self._place._lock.release()

    def __exit__(
        self, kind: type[BaseException] | None, error: BaseException | None, trace: TracebackType | None
    ) -> None:
        self._end()

    def _call(self, what: _What, m: int = 0, n: int = 0, a: bytes = b"", b: bytes = b"") -> _Told:
        if not self._is_open:
            raise Refusal(Why.NOT_READ)
        return self._place._call(what, m, n, a, b)

    def read_at(self) -> int:  # noqa: D102
        return self._place.read_at()


class Draft(_Calls):
    """The map that a run of a mutator of the program's own reads and writes, until the run ends.

    `rebase` says for which reason it is run: a pull was applied under the mutation, or the client makes it.
    """

    def __init__(self, place: Place, *, rebase: bool) -> None:
        """For `Place` alone."""
        self._place: Place | None = place
        self.rebase = rebase

    def _call(self, what: _What, m: int = 0, n: int = 0, a: bytes = b"", b: bytes = b"") -> _Told:
        if self._place is None:
            raise Refusal(Why.NOT_ASKED)
        return self._place._call(what, m, n, a, b)

    def get(self, key: str, default: Json = None) -> Json:
        """The value at the key, or the default where there is none."""
        return self._value(_What.DRAFT_GET, key, default)

    def has(self, key: str) -> bool:
        """Whether the key is there."""
        return self._is(_What.DRAFT_HAS, key)

    def scan(
        self, prefix: str = "", *, at: str | None = None, after: str | None = None, limit: int | None = None
    ) -> list[Row]:
        """The rows, as `Place.scan` has them."""
        return _rows(self._scan(_What.DRAFT_SCAN, prefix, at, after, limit).bytes)

    def put(self, key: str, value: Json) -> None:
        """Puts a value at the key."""
        self._call(_What.DRAFT_PUT, a=key.encode(), b=json_bytes(value))

    def delete(self, key: str) -> None:
        """Takes the key out, whether or not it was there."""
        self._call(_What.DRAFT_DEL, a=key.encode())

    def write(self, writes: Iterable[Put | Del]) -> None:
        """Puts values and takes keys out, in their order, by one call.

        Where it is refused with `Why.NOT_JSON` or `Why.NOT_WHOLE` none is done. Where it is refused for what `get` may
        be refused for, as memory, the first ones may be done.
        """
        self._call(_What.DRAFT_WRITES, a=json_bytes([_operation(write) for write in writes]))


Mutator = Callable[[Draft, Json], None]
"""A mutator of the program's own: it reads and writes the draft, and raises `Refuse` to refuse.

Every rebase runs it again. So what it does has to depend on its name, its arguments, the reason and the draft alone:
that is trusted.
"""


def _rows(text: bytes) -> list[Row]:
    return [Row(*row) for row in json.loads(text)]


def _diffs(text: bytes) -> list[Diff]:
    return [Diff(one["op"], one["key"], one.get("oldValue"), one.get("newValue")) for one in json.loads(text)]


def _operation(write: Put | Del) -> dict[str, Json]:
    """The write as an operation of a patch."""
    if isinstance(write, Put):
        return {"op": "put", "key": write.key, "value": write.value}
    return {"op": "del", "key": write.key}


class Group:
    """A client group that lives in memory and starts empty, and its places.

    It is opened with its ID, a UUID, the profile ID and the schema version of its requests, 16 to 16,777,216 slots of
    8 bytes each, and of 80 once they are used, and 1 to 256 places. Its mutators are data (`rules`: `docs/RULES.md`),
    functions of the program (`mutators`), or both; ValueError where a name is one of each. Without `mutators` a name
    that has no rule is a mutator of scripts. A group never grows: `docs/USING.md` says how many slots to ask for. It
    starts empty, so its clients need IDs that no group had before: see `Place.sit`. `Replicache` has groups that grow
    and that outlive their process.
    """

    def __init__(
        self,
        group: str,
        *,
        profile: str,
        schema: str,
        rules: dict[str, Json] | None = None,
        mutators: Mapping[str, Mutator] | None = None,
        slots: int = 4096,
        places: int = 1,
    ) -> None:
        texts = [group.encode(), profile.encode(), schema.encode(), b"" if rules is None else json_bytes(rules)]
        given = [word for text in texts for word in (text, len(text))]
        handles = (_Handle * _within("places", places, 2**16))()
        own = 0 if mutators is None else 1
        if both := (rules or {}).keys() & (mutators or {}).keys():
            raise ValueError(f"rules and mutators of one name: {', '.join(sorted(both))}")
        returned = _library().giq_open(*given, _within("slots", slots, 2**32 - 1), own, handles, places)
        if returned == Why.BAD_RULES:
            raise Refusal(Why.BAD_RULES, fault=_rules_fault(texts[-1]))
        if returned < 0:
            raise Refusal(Why(returned))
        self.places = [Place(handle, mutators or {}) for handle in handles]
        """The places; the group is freed with the last of them."""

    def close(self) -> None:
        """Closes all places."""
        for place in self.places:
            place.close()

    def __enter__(self) -> Group:
        return self

    def __exit__(
        self, kind: type[BaseException] | None, error: BaseException | None, trace: TracebackType | None
    ) -> None:
        self.close()
