"""Scripts made at random, each from a number: most run, some have a fault."""

import random
from collections.abc import Sequence
from typing import TypeVar

from script import uuid_of
from wire import ARGS_DEPTH, quoted

T = TypeVar("T")

UUIDS = (
    "00000000-0000-4000-8000-00000000000a",
    "00000000-0000-4000-8000-00000000000b",
    "0A0B0C0D-1111-4222-8333-ABCDEFABCDEF",
    "urn:uuid:00000000-0000-4000-8000-00000000000c",
    "URN:Uuid:00000000-0000-4000-8000-00000000000c",
    "{00000000-0000-4000-8000-00000000000d}",
    "0000000000004000800000000000000e",
)
NAMES = ("A", "B", "C", "client", "get", "x9", "group", "rules", "Abcdefghij012345")
ODD_KEYS = ("", "a", "b", "n", "ab", "a b", "log", "é", "\x01", "\x7f", '"', "\\", "日本", "ｚ", "😀")
NUMBERS = (0, 1, -1, 5, 42, 2**63 - 1, -(2**63), 2**63, 2**64 - 1)
TEXTS = ("", "x", "é\x01", 'a"b\\', "\n\t\r\b\f", "/\x7f", "\u2028", "😀")
FLAT_KINDS = ("number", "number", "text", "text")
WHOLE_KINDS = (*FLAT_KINDS, "word", "array", "object")
NO_WHOLE_NUMBERS = ("1.5", "-0", "1e3", "0.0", "18446744073709551616", "-9223372036854775809")
ODD_BODIES = (
    "",
    "{",
    "[]",
    "null",
    "1 2",
    '{"a":"\\ud800"}',
    '{"error":null}',
    '{"error":"ClientStateNotFound"}',
    '{"error":"VersionNotSupported"}',
    '{"error":"VersionNotSupported","versionType":"push"}',
    '{"error":"VersionNotSupported","versionType":"schema","cookie":1.5}',
    '{"cookie":1}',
    '{"cookie":1,"lastMutationIDChanges":[],"patch":[]}',
    '{"cookie":1,"lastMutationIDChanges":{},"patch":{}}',
)
ODD_OPERATIONS = ("{}", "1", '{"op":"update","key":"n"}', '{"op":"put","key":"n"}', '{"op":"put","key":1,"value":1}')
BYTES = b'[]{}",:\\/-+.eE019tfnu \t\r\0\x1f\x7f\xc3\xff'
MUTATORS = ("set", "set", "set", "del", "incr", "incr", "append", "append", "tag", "tag", "nosuch", "Set")
DEEPEST_ARGS = f"{'[' * ARGS_DEPTH}{']' * ARGS_DEPTH}"
ODD_ARGS = ("[]", "{}", "1", '["a"]', '["a",1,2]', '["n","1"]', '["n",18446744073709551615]', DEEPEST_ARGS)
ODD_LINES = (
    "phase x",
    "phase ",
    " ",
    "A",
    "A ",
    "Q get a",
    "client A 1",
    f"client phase {UUIDS[0]}",
    f"client 1a {UUIDS[0]}",
    "slots",
    "slots 16 x",
    "slots 15",
    "slots +16",
    "slots 16777217",
    "group zz",
    f"group {UUIDS[0]}",
    "profile",
    "A scan - x -",
    "A scan - - +1",
    "A scan - - 18446744073709551616",
    "A scan  - -",
    "A mutate 9007199254740992 set [1]",
    "A mutate 1 set ",
    "A mutate 1 set",
    "A mutate 1  []",
    "A mutate 1 set [1.5]",
    f"A mutate 1 set [{DEEPEST_ARGS}]",
    "A end t",
    "A end zz {}",
    "A learn Q",
    "A learn phase",
    "A begin t!",
    "A watch w",
    "A watch w! - - -",
    "A watch w - x -",
    "A watch w - - +1",
    "A watch w - - - -",
    "A poll zz",
    "A poll",
    "A begin 12345678901234567",
    "A get",
    "A push ",
    "A push 1 2",
    "A push -1",
    "A push 18446744073709551616",
    "A pulled",
    "A pulled has a",
    "A pulled get",
    "A pulled scan - -",
    "A unwatch",
    "A unwatch zz",
    "A changes",
    "A changes zz",
    "A empty x",
    "A closed x",
    "A read x",
    "A unread x",
)


class Scripts:
    """Makes one script. A wide one has thousands of keys, so that chunks split and empty."""

    def __init__(self, number: int) -> None:
        self.random = random.Random(number)
        self.is_wide = self.chance(0.1)
        self.numbered = 3000 if self.is_wide else 40
        self.cookie_number = 0
        self.greatest_id = 3
        self.clients: dict[str, str] = {}
        self.tickets: list[tuple[str, str]] = []
        self.watches: list[tuple[str, str]] = []

    def chance(self, part: float) -> bool:
        return self.random.random() < part

    def pick(self, choices: Sequence[T]) -> T:
        return self.random.choice(choices)

    def script(self) -> bytes:
        self.clients = self.some_clients()
        lines = self.header()
        # One client alone has lines in a phase: of two that call at once nothing says which is first.
        for _ in range(self.pick((1, 5, 20, 80, 200))):
            lines.append("phase")
            name = self.pick(list(self.clients))
            for _ in range(self.pick((1, 1, 2, 5))):
                lines += self.calls(name)
        script = "\n".join(lines + [""] * self.chance(0.5)).encode()
        return self.spoilt(script) if self.chance(0.25) else script

    def some_clients(self) -> dict[str, str]:
        return {name: self.pick(UUIDS) for name in self.random.sample(NAMES, self.pick((1, 2, 2, 3)))}

    def header(self) -> list[str]:
        lines = [f"client {name} {id}" for name, id in self.clients.items()]
        for part, line in (
            (0.8, f"group {self.pick(UUIDS)}"),
            (0.3, self.pick(("profile p x", "profile ", 'profile "é"', "profile p1 "))),
            (0.3, self.pick(("schema s2", "schema ", "schema \\\t"))),
            (1, self.pick(("slots 65536", "slots 0098304", "slots 131072"))),
        ):
            lines += [line] * self.chance(part)
        self.random.shuffle(lines)
        return lines

    def calls(self, name: str) -> list[str]:
        if self.chance(0.03):
            return [self.pick(("", "# note"))]
        kinds = (self.mutation, self.query, self.pull, self.other_end, self.poll, self.reading)
        [kind] = self.random.choices(kinds, (35, 30, 20, 5, 10, 5))
        return kind(name)

    def reading(self, name: str) -> list[str]:
        """A reading, mostly to its end: one that stays open keeps slots."""
        lines = [f"{name} unread"] * self.chance(0.3) + [f"{name} read"]
        for _ in range(self.pick((0, 1, 3, 8))):
            lines += self.inside(name)
        return lines + [f"{name} unread"] * self.chance(0.9)

    def inside(self, name: str) -> list[str]:
        """A call while a reading of this client is open."""
        kind = self.pick((self.query, self.query, self.query, self.mutation, self.pull, self.poll))
        return kind(name)

    def mutation(self, name: str) -> list[str]:
        mutator, args = self.asked()
        self.greatest_id += self.chance(0.3)
        time = self.pick(("0", "1", "007", "9007199254740991"))
        return [f"{name} mutate {time} {mutator} {args}"] + [f"{name} refresh"] * self.chance(0.3)

    def asked(self) -> tuple[str, str]:
        mutator = self.pick(MUTATORS)
        key = self.escaped(self.key())
        arguments = {
            "del": key,
            "tag": key,
            "incr": f"{key},{self.pick((1, -1, 5, 2**63 - 1, -(2**63), self.whole_value()))}",
            "append": f"{key},{self.escaped(self.pick(TEXTS)) if self.chance(0.9) else self.whole_value()}",
        }
        args = f"[{arguments.get(mutator, f'{key},{self.whole_value()}')}]"
        if self.chance(0.06):
            args = self.pick(ODD_ARGS)
        return mutator, f" {args} " if self.chance(0.1) else args

    def query(self, name: str) -> list[str]:
        skipped = self.pick((0, 1, "02", 9, 2**64 - 1))
        bare = ("empty", "closed", "pending", "cookie", "push", "refresh", f"push {skipped}")
        return [
            self.pick(
                (
                    f"{name} {self.pick(bare)}",
                    f"{name} get {self.key()}",
                    f"{name} has {self.key()}",
                    f"{name} pulled get {self.key()}",
                    f"{name} pulled scan {self.scan()}",
                    f"{name} learn {self.pick(list(self.clients))}",
                    f"{name} scan {self.scan()}",
                    f"{name} scan {self.scan()}",
                )
            )
        ]

    def scan(self) -> str:
        key = self.key().replace(" ", "")
        start = self.pick(("-", f"={key}", f">{key}"))
        return f"{self.pick(('-', 'k', 'k0', 'a', 'é'))} {start} {self.pick(('-', '-', '0', '1', '3', 2**64 - 1))}"

    def poll(self, name: str) -> list[str]:
        own = [watch for client, watch in self.watches if client == name]
        if own and self.chance(0.8):
            return [f"{name} {self.pick(('poll', 'poll', 'poll', 'changes', 'changes', 'unwatch'))} {self.pick(own)}"]
        watch = self.pick(("w", "v", "t"))
        self.watches.append((name, watch))
        return [f"{name} watch {watch} {self.scan()}"] + [f"{name} poll {watch}"] * self.chance(0.8)

    def pull(self, name: str) -> list[str]:
        ticket = self.pick(("t", "u", "w9"))
        self.tickets.append((name, ticket))
        return [f"{name} begin {ticket}"] + [f"{name} end {ticket} {self.body()}"] * self.chance(0.8)

    def other_end(self, name: str) -> list[str]:
        if not self.tickets:
            return self.query(name)
        name, ticket = self.pick(self.tickets)
        return [f"{name} end {ticket} {self.body()}"]

    def body(self) -> str:
        if self.chance(0.05):
            return self.odd_body()
        patch = ",".join(self.patch())
        fields = [
            f'"cookie":{self.cookie()}',
            f'"lastMutationIDChanges":{{{",".join(self.change() for _ in range(self.pick((0, 0, 0, 1, 2))))}}}',
            f'"patch":[{patch}]',
        ]
        if self.chance(0.3):
            self.random.shuffle(fields)
        if self.chance(0.1):
            fields.append(f'"more":{self.value()}')
        if self.chance(0.05):
            fields.append(f'"cookie":{self.cookie()}')
        if self.chance(0.03):
            depth = self.pick((125, 126, 127))
            fields.append(f'"x":{"[" * depth}{"]" * depth}')
        return f"{{{','.join(fields)}}}"

    def patch(self) -> list[str]:
        """Operations, in any number of which one at most is odd, and one a clear: a wide map has to become wide."""
        lengths = (0, 50, 400) if self.is_wide else (0, 0, 1, 2, 5, 20)
        operations = [self.operation() for _ in range(self.pick(lengths))]
        for part, operation in ((0.08, '{"op":"clear"}'), (0.06, self.odd_operation())):
            if self.chance(part):
                operations.insert(self.random.randrange(len(operations) + 1), operation)
        return operations

    def odd_operation(self) -> str:
        return self.pick((*ODD_OPERATIONS, f'{{"op":"put","key":"n","value":{self.value()}}}'))

    def odd_body(self) -> str:
        return self.pick(ODD_BODIES)

    def cookie(self) -> str:
        if self.chance(0.6):
            self.cookie_number += self.pick((0, 1, 1, 1, 2))
            return str(self.cookie_number)
        if self.chance(0.5):
            return self.pick(("null", '"1"', '"2"', '"é"', "-5", "1.5", "true", "[]"))
        return self.ordered(self.pick((self.cookie_number, self.cookie_number + 1, '"1"', '"2"', "null", "1.5")))

    def ordered(self, order: object) -> str:
        """An object as a cookie."""
        more = self.pick(("", "", ',"by":4', ',"x":[1,{}]', ',"q":1.5'))
        return f'{{"order":{order}{more}}}'

    def change(self) -> str:
        client = self.pick([uuid_of(id) for id in self.clients.values()] + ["x", UUIDS[0].upper()])
        odd = ("4503599627370496", "4503599627370497", "-1", "1.5", '"1"')
        id = self.pick(odd) if self.chance(0.1) else self.random.randrange(self.greatest_id)
        return f"{self.escaped(client)}:{id}"

    def operation(self) -> str:
        key = self.escaped(self.key())
        if self.chance(0.25):
            return f'{{"op":"del","key":{key}}}'
        return f'{{"op":"put","key":{key},"value":{self.whole_value()}}}'

    def key(self) -> str:
        return self.pick(ODD_KEYS) if self.chance(0.5) else f"k{self.random.randrange(self.numbered):02}"

    def value(self, depth: int = 0, kinds: tuple[str, ...] = (*WHOLE_KINDS, "fraction")) -> str:
        kind = self.pick(kinds if depth < 4 else FLAT_KINDS)
        if kind == "number":
            return str(self.pick(NUMBERS))
        if kind == "text":
            return self.escaped(self.pick(TEXTS))
        if kind == "word":
            return self.pick(("null", "true", "false"))
        if kind == "fraction":
            return self.pick(NO_WHOLE_NUMBERS)
        values = [self.value(depth + 1, kinds) for _ in range(self.random.randrange(3))]
        if kind == "array":
            return f"[{', '.join(values)}]"
        return f"{{{','.join(f'{self.escaped(self.key())} : {value}' for value in values)}}}"

    def whole_value(self) -> str:
        return self.value(0, WHOLE_KINDS)

    def escaped(self, text: str) -> str:
        """The text as JSON, in some texts characters by their codes that needn't be."""
        if self.chance(0.8):
            return quoted(text)
        return "".join(
            f"\\u{ord(char):04X}" if ord(char) < 2**16 and self.chance(0.3) else quoted(char)[1:-1] for char in text
        ).join('""')

    def spoilt(self, script: bytes) -> bytes:
        lines = script.split(b"\n")
        at = self.random.randrange(len(lines))
        words = (self.with_odd_line, self.with_clients, self.with_other_words)
        kinds = (*words, self.with_other_byte, self.with_other_order)
        self.pick(kinds)(lines, at)
        return b"\n".join(lines)

    def with_odd_line(self, lines: list[bytes], at: int) -> None:
        lines.insert(at, self.odd_line().encode())

    def odd_line(self) -> str:
        """A faulty line, mostly of a client that is there."""
        line = self.pick(ODD_LINES)
        return f"{self.pick(list(self.clients))}{line[1:]}" if line.startswith("A") else line

    def with_clients(self, lines: list[bytes], at: int) -> None:
        count = self.pick((60, 252, 254, 255, 256, 257))
        lines[at:at] = [f"client C{number} {UUIDS[number % 7]}".encode() for number in range(count)]

    def with_other_words(self, lines: list[bytes], at: int) -> None:
        line = lines[at]
        odd_byte = bytes([self.pick((0xFF, 0xC3, 0xED, 0x0D, 0x00, 0x09))])
        lines[at] = self.pick((line + b" x", line.rsplit(b" ", 1)[0], line.replace(b" ", b"  ", 1), line + odd_byte))

    def with_other_byte(self, lines: list[bytes], at: int) -> None:
        """A byte of the line is another one, is left out, or has one more before it. A digit less would be too few
        slots, and one more too many for a machine."""
        line, other = lines[at], bytes([self.pick(BYTES)])
        place = self.random.randrange(len(line) + 1)
        if not line.startswith(b"slots "):
            lines[at] = line[:place] + self.pick((b"", other)) + line[place + self.pick((0, 1)) :]

    def with_other_order(self, lines: list[bytes], at: int) -> None:
        if self.chance(0.5):
            lines.append(lines[at])
        self.random.shuffle(lines)
