"""The script language, as docs/SCRIPT.md has it: what a script says, and what it prints."""

import re
from collections.abc import Callable
from typing import Any, NamedTuple

from model import Group, mutated, scanned
from wire import ARGS_DEPTH, NotJson, Refused, compact, is_whole, read_json

HEADER_WORDS = ("group", "profile", "schema", "slots", "client")
# What `moment` and `slots` tell follows from how nodes are placed, which is no part of this model.
UNTOLD = ("moment", "slots")
BARE_COMMANDS = ("empty", "closed", "pending", "cookie", "refresh", "read", "unread", *UNTOLD)
KEY_COMMANDS = ("get", "has", "pulled get")
SCAN_COMMANDS = ("scan", "pulled scan")
WATCH_COMMANDS = ("poll", "changes", "unwatch")
COMMANDS = (
    *BARE_COMMANDS,
    *KEY_COMMANDS,
    *SCAN_COMMANDS,
    *WATCH_COMMANDS,
    *("push", "begin", "end", "mutate", "learn", "watch"),
)
# What an open reading answers; and what is done whether one is open or not.
READ_COMMANDS = ("empty", "closed", "pending", "cookie", "push", *KEY_COMMANDS, *SCAN_COMMANDS)
OTHER_COMMANDS = ("unread", "unwatch")
# Commands of two words begin with one of these.
FIRST_WORDS = ("pulled",)

MOST_SLOTS = 2**24
MOST_CLIENTS = 256

NAME = re.compile(r"(?!phase\Z)[A-Za-z][A-Za-z0-9]{0,15}")
TICKET = re.compile(r"[A-Za-z0-9]{1,16}")
START = re.compile(r"-|[=>].*", re.DOTALL)
DIGITS = re.compile(r"[0-9]+")
HYPHENATED = "[0-9a-f]{8}-[0-9a-f]{4}-[0-9a-f]{4}-[0-9a-f]{4}-[0-9a-f]{12}"
UUID = re.compile(rf"(?:urn:uuid:)?{HYPHENATED}|\{{{HYPHENATED}\}}|[0-9a-f]{{32}}", re.IGNORECASE | re.ASCII)


class Fault(Exception):
    """What is told of a faulty line."""


Scan = tuple[str, str, int | None]
Pairs = list[list[Any]]


class Line(NamedTuple):
    number: int
    client: int
    command: str
    words: Any


class Script:
    def __init__(self) -> None:
        self.said: dict[str, Any] = {"group": "00000000-0000-0000-0000-000000000000", "profile": "p1", "schema": "s1"}
        self.names: list[str] = []
        self.ids: list[str] = []
        self.phases: list[list[Line]] = []
        self.has_said: set[str] = set()
        self.made_tickets: set[tuple[int, str]] = set()
        self.made_watches: set[tuple[int, str]] = set()

    def read(self, data: bytes) -> "Script":
        try:
            text = data.decode("utf-8")
        except UnicodeDecodeError as error:
            raise Fault(f"line {1 + data.count(bytes([10]), 0, error.start)}: not UTF-8") from error
        for number, line in enumerate(text.split("\n"), 1):
            if line and not line.startswith("#"):
                try:
                    self.read_line(number, line)
                except Fault as fault:
                    raise Fault(f"line {number}: {fault}") from fault
        return self

    def identity(self) -> list[str]:
        return [self.said[word] for word in ("group", "profile", "schema")]

    def read_line(self, number: int, line: str) -> Line | None:
        """Reads a line, and gives the call that it asks for; None where it is another line."""
        words = line.split(" ")
        if self.phases and words[0] != "phase":
            return self.read_call(number, line, words)
        if words[0] == "phase":
            expect(len(words) == 1, "bad words")
            self.phases.append([])
        else:
            self.read_header(line, words)
        return None

    def read_header(self, line: str, words: list[str]) -> None:
        word = words[0]
        expect(word in HEADER_WORDS, "unknown line")
        if word == "client":
            self.add_client(words)
            return
        value: str | int
        if word in ("profile", "schema"):
            expect(len(words) > 1, "bad words")
            value = line[len(word) + 1 :]
        else:
            expect(len(words) == 2 and words[1], "bad words")
            value = uuid_of(words[1]) if word == "group" else number_of(words[1], 16, MOST_SLOTS + 1)
        expect(word not in self.has_said, "said twice")
        self.has_said.add(word)
        self.said[word] = value

    def add_client(self, words: list[str]) -> None:
        expect(len(words) == 3 and NAME.fullmatch(words[1]) and words[2], "bad words")
        id = uuid_of(words[2])
        expect(words[1] not in self.names, "said twice")
        expect(len(self.names) < MOST_CLIENTS, "too many clients")
        self.names.append(words[1])
        self.ids.append(id)

    def read_call(self, number: int, line: str, words: list[str]) -> Line:
        expect(words[0] in self.names, "unknown client")
        length = 2 if words[1:] and words[1] in FIRST_WORDS else 1
        client, command = self.names.index(words[0]), " ".join(words[1 : 1 + length])
        expect(command in COMMANDS, "unknown command")
        rest = line[len(words[0]) + 1 + len(command) :]
        found = self.read_rest(client, command, words[1 + length :], rest)
        call = Line(number, client, command, found)
        self.phases[-1].append(call)
        return call

    def read_rest(self, client: int, command: str, words: list[str], rest: str) -> Any:
        """Reads what stands behind a command."""
        if command in BARE_COMMANDS:
            expect(not words, "bad words")
            return None
        if command in KEY_COMMANDS:
            expect(rest, "bad words")
            return rest[1:]
        kind = "scan" if command in SCAN_COMMANDS else "poll" if command in WATCH_COMMANDS else command
        return getattr(self, f"read_{kind}")(client, words, rest[1:])

    def read_push(self, _client: int, words: list[str], _rest: str) -> int:
        if not words:
            return 0
        expect(len(words) == 1 and words[0], "bad words")
        return number_of(words[0], 0, 2**64)

    def read_scan(self, _client: int, words: list[str], _rest: str) -> Scan:
        expect(len(words) == 3 and all(words) and START.fullmatch(words[1]), "bad words")
        limit = None if words[2] == "-" else number_of(words[2], 0, 2**64)
        return "" if words[0] == "-" else words[0], words[1], limit

    def read_begin(self, client: int, words: list[str], _rest: str) -> str:
        expect(len(words) == 1 and TICKET.fullmatch(words[0]), "bad words")
        self.made_tickets.add((client, words[0]))
        return words[0]

    def read_end(self, client: int, words: list[str], rest: str) -> tuple[str, bytes]:
        expect(len(words) > 1 and TICKET.fullmatch(words[0]), "bad words")
        expect((client, words[0]) in self.made_tickets, "unknown name")
        return words[0], rest[len(words[0]) + 1 :].encode()

    def read_watch(self, client: int, words: list[str], _rest: str) -> tuple[str, Scan]:
        expect(words and TICKET.fullmatch(words[0]), "bad words")
        scan = self.read_scan(client, words[1:], "")
        self.made_watches.add((client, words[0]))
        return words[0], scan

    def read_poll(self, client: int, words: list[str], _rest: str) -> str:
        expect(len(words) == 1 and TICKET.fullmatch(words[0]), "bad words")
        expect((client, words[0]) in self.made_watches, "unknown name")
        return words[0]

    def read_learn(self, _client: int, words: list[str], _rest: str) -> None:
        expect(len(words) == 1 and NAME.fullmatch(words[0]), "bad words")
        expect(words[0] in self.names, "unknown name")

    def read_mutate(self, _client: int, words: list[str], rest: str) -> tuple[int, str, Any]:
        expect(len(words) > 2 and words[0] and words[1], "bad words")
        time = number_of(words[0], 0, 2**53)
        return time, words[1], args_of(rest[len(words[0]) + len(words[1]) + 2 :])


def expect(holds: object, fault: str) -> None:
    if not holds:
        raise Fault(fault)


def uuid_of(word: str) -> str:
    expect(UUID.fullmatch(word), "bad UUID")
    digits = word[-38:].strip("{}").replace("urn:uuid:", "").replace("-", "").lower()[-32:]
    return "-".join((digits[:8], digits[8:12], digits[12:16], digits[16:20], digits[20:]))


def number_of(word: str, first: int, end: int) -> int:
    expect(DIGITS.fullmatch(word) and first <= int(word) < end, "bad number")
    return int(word)


def args_of(text: str) -> Any:
    try:
        args = read_json(text.encode(), ARGS_DEPTH)
    except NotJson as error:
        raise Fault("bad JSON") from error
    expect(is_whole(args), "bad JSON")
    return args


def changes_between(old: Pairs, new: Pairs) -> list[dict[str, Any]]:
    """Of each key that has another value than before, what it was and what it is."""
    before, after = ({key: value for key, value in rows} for rows in (old, new))
    changes = []
    for key in sorted(before | after, key=str.encode):
        if key not in after:
            changes.append({"key": key, "oldValue": before[key], "op": "del"})
        elif key not in before:
            changes.append({"key": key, "newValue": after[key], "op": "add"})
        elif compact(before[key]) != compact(after[key]):
            changes.append({"key": key, "newValue": after[key], "oldValue": before[key], "op": "change"})
    return changes


class Client:
    def __init__(self, id: str) -> None:
        self.id = id
        self.last = 0
        self.tickets: dict[str, str] = {}
        self.watches: dict[str, tuple[Scan, Pairs | None]] = {}
        self.reading: Group | None = None

    def reply(self, group: Group, command: str, words: Any) -> str:
        if self.reading and command not in OTHER_COMMANDS:
            if command not in READ_COMMANDS:
                return "reads"
            group = self.reading
        try:
            return str(getattr(self, command.replace(" ", "_"))(group, words))
        except Refused as refusal:
            return f"refused {refusal}"

    def get(self, group: Group, key: str) -> str:
        rows = group.view
        return f"value {compact(rows[key])}" if key in rows else "none"

    def has(self, group: Group, key: str) -> str:
        return "yes" if key in group.view else "no"

    def empty(self, group: Group, _words: None) -> str:
        return "no" if group.view else "yes"

    def closed(self, group: Group, _words: None) -> str:
        return "yes" if group.closed else "no"

    def scan(self, group: Group, words: Scan) -> str:
        return f"rows {compact(group.scan(*words))}"

    def pending(self, group: Group, _words: None) -> str:
        return f"pending {compact([[it.client, it.id, it.name] for it in group.pending])}"

    def cookie(self, group: Group, _words: None) -> str:
        return f"cookie {compact(group.cookie)}"

    def push(self, group: Group, skip: int) -> str:
        return f"push {group.push_body(skip)}"

    def pulled_get(self, group: Group, key: str) -> str:
        return f"value {compact(group.pulled[key])}" if key in group.pulled else "none"

    def pulled_scan(self, group: Group, words: Scan) -> str:
        return f"rows {compact(scanned(group.pulled, *words))}"

    def begin(self, group: Group, ticket: str) -> str:
        self.tickets[ticket] = compact(group.cookie)
        return f"pull {group.pull_body()}"

    def end(self, group: Group, words: tuple[str, bytes]) -> str:
        ticket, body = words
        return group.end_pull(self.tickets[ticket], body) if ticket in self.tickets else "no ticket"

    def mutate(self, group: Group, words: tuple[int, str, Any]) -> str:
        time, name, args = words
        self.last = group.mutate(self.id, self.last, name, args, time)
        return f"id {self.last}"

    def refresh(self, group: Group, _words: None) -> str:
        self.last = group.last(self.id)
        return f"last {self.last}"

    def read(self, group: Group, _words: None) -> str:
        self.reading = group.as_it_is()
        return "reading"

    def unread(self, _group: Group, _words: None) -> str:
        was, self.reading = self.reading, None
        return "read" if was else "no reading"

    def learn(self, _group: Group, _words: None) -> str:
        return "learnt"

    def watch(self, _group: Group, words: tuple[str, Scan]) -> str:
        name, scan = words
        self.watches[name] = (scan, None)
        return "watching"

    def unwatch(self, _group: Group, name: str) -> str:
        return "unwatched" if self.watches.pop(name, None) else "no watch"

    def poll(self, group: Group, name: str) -> str:
        return self.polled(group, name, lambda _, rows: f"new {compact(rows)}")

    def changes(self, group: Group, name: str) -> str:
        return self.polled(group, name, lambda last, rows: f"changes {compact(changes_between(last or [], rows))}")

    def polled(self, group: Group, name: str, told: Callable[[Pairs | None, Pairs], str]) -> str:
        if name not in self.watches:
            return "no watch"
        scan, last = self.watches[name]
        rows = group.scan(*scan)
        self.watches[name] = (scan, rows)
        return "unchanged" if last is not None and compact(rows) == compact(last) else told(last, rows)


def kind(reply: str) -> str:
    """Of a client's reply, which one it is: its word, and of a refusal the name too."""
    words = reply.split(" ")
    return " ".join(words[: 2 if words[0] == "refused" else 1])


def has_one_order(data: bytes) -> bool:
    """Whether no phase has lines of two clients, of which either may be first."""
    try:
        script = Script().read(data)
    except Fault:
        return True
    return all(len({line.client for line in phase}) < 2 for phase in script.phases)


def printed(data: bytes) -> tuple[bytes, bytes, int]:
    """Standard output, standard error and the status."""
    try:
        script = Script().read(data)
    except Fault as fault:
        return b"", f"{fault}\n".encode(), 2
    group = Group(script.identity(), mutated)
    clients = [Client(id) for id in script.ids]
    out = []
    for phase in script.phases:
        for line in sorted(phase, key=lambda line: line.client):
            reply = clients[line.client].reply(group, line.command, line.words)
            out.append(f"{line.number} {script.names[line.client]} {reply}\n")
    return "".join(out).encode(), b"", 0
