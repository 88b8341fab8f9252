"""Lines over a pipe made at random, each group's from a number. They follow from how things stand behind those before
them, so that most ends of pulls are taken; some lines of each kind are faulty."""

from collections.abc import Iterator
from typing import Any

import random_rules
from model import Group
from pipe import Pipe
from random_scripts import ODD_BODIES, UUIDS, Scripts
from script import uuid_of
from wire import compact, quoted

# How many lines a group has behind its header, about: most groups are short, most lines are those of long ones.
LENGTHS = (*(5,) * 20, *(50,) * 4, *(200,) * 3, 1000, 1000, 5000)
GREATEST_CONFIRMED = 2**52
CLOSING = '{"error":"ClientStateNotFound"}'

FIRST, SECOND = ["arg", 0], ["arg", 1]
RULES = {
    "add": [
        ["need", ["not", ["has", FIRST]], 10],
        ["put", FIRST, SECOND],
        ["put", "n", ["add", ["or", ["get", "n"], 0], 1]],
    ],
    "raise": [["put", FIRST, ["add", ["or", ["get", FIRST], 0], SECOND]]],
    "move": [["need", ["has", FIRST], 11], ["put", SECOND, ["get", FIRST]], ["del", FIRST]],
    "change": [["if", ["has", FIRST], [["merge", FIRST, SECOND]], [["put", FIRST, {"by": SECOND}]]]],
    # What is written before it refuses has to be thrown away.
    "half": [["put", FIRST, SECOND], ["del", "a"], ["need", ["has", "log"], 12]],
    # It goes before the one of scripts.
    "del": [["put", FIRST, None]],
}


class Lines(Scripts):
    """Makes the lines of one group. Its twin answers some before the next are made."""

    def __init__(self, number: int, twin: Pipe) -> None:
        super().__init__(number)
        random_rules.r.seed(number)
        self.twin = twin
        self.length = self.pick(LENGTHS)
        # What ends all changes, or those of a client, comes in some groups: behind it little is tried.
        self.may_end = self.chance(0.4 if self.length <= 200 else 0.05)
        # Where few pulls end, hundreds of mutations stay pending.
        self.has_few_pulls = self.chance(0.15)
        # A text as a cookie, or a great number, makes all that is less go back: the longer a group, the rarer.
        self.odd_cookies = min(0.3, 10 / self.length)

    @property
    def group(self) -> Group:
        group: Group = self.twin.group
        return group

    def lines(self) -> Iterator[list[bytes]]:
        """The lines, with their line feeds, some at a time; the last of all may be without one."""
        for lines in self.texts():
            yield [line + b"\n" for line in lines]
        yield [f"{self.pick(list(self.clients))} scan - - -".encode() + b"\n" * self.chance(0.5)]

    def texts(self) -> Iterator[list[bytes]]:
        self.clients = self.some_clients()
        yield self.head_lines()
        yield [b"phase"]
        end, names = self.twin.number + self.length, list(self.clients)
        while self.twin.number < end:
            name = self.pick(names)
            yield self.odd_lines(name) if self.chance(0.12) else [line.encode() for line in self.calls(name)]
        # How the group stands at the end.
        yield [f"{names[0]} {command}".encode() for command in ("pending", "cookie", "push", "closed")]

    def head_lines(self) -> list[bytes]:
        """The header lines, among them faulty ones."""
        lines = [line.encode() for line in self.header()]
        lines += [b"rules " + self.rules_text() for _ in range(self.pick((0, 1, 1, 2)))]
        if self.chance(0.02):
            self.with_clients(lines, 0)
        if self.chance(0.7):
            lines += [line for _ in range(self.pick((1, 4, 12))) for line in self.odd_lines("A")]
        self.random.shuffle(lines)
        return lines

    def rules_text(self) -> bytes:
        if self.chance(0.3):
            return random_rules.bytes_of_rules()
        return random_rules.written(RULES | random_rules.any_rules(False), False).encode()

    def odd_lines(self, name: str) -> list[bytes]:
        """Lines that are no calls, or faulty."""
        kinds = (self.skipped, self.phase, self.late, self.other_name, self.spoilt_call, self.odd_text)
        [kind] = self.random.choices(kinds, (2, 2, 2, 2, 4, 4))
        return kind(name)

    def skipped(self, _name: str) -> list[bytes]:
        return [self.pick((b"", b"#", b"# note", b"## \xe2\x82\xac", b"#\xff", b"\r"))]

    def phase(self, _name: str) -> list[bytes]:
        return [b"phase"] if self.twin.script.phases else [b"phase "]

    def late(self, _name: str) -> list[bytes]:
        """A line of the head that is right there."""
        lines = [*self.header(), "rules {}", "rules", f"client N {UUIDS[0]}"]
        return [self.pick(lines).encode()]

    def other_name(self, name: str) -> list[bytes]:
        """A name that the client maybe didn't make, or that no client has."""
        watch, ticket = self.pick(("w", "v", "t", "u")), self.pick(("t", "u", "w9", "T"))
        watched = (f"poll {watch}", f"changes {watch}", f"unwatch {watch}")
        lines = (*watched, f"end {ticket} {{}}", "learn Q", f"learn {name.lower()}", f"learn {name}")
        return [f"{name} {self.pick(lines)}".encode()]

    def spoilt_call(self, name: str) -> list[bytes]:
        lines = [line.encode() for line in self.any_calls(name)]
        self.pick((self.with_other_words, self.with_other_byte))(lines, len(lines) - 1)
        return lines

    def odd_text(self, _name: str) -> list[bytes]:
        return [self.odd_line().encode()]

    def any_calls(self, name: str) -> list[str]:
        """Calls, or before the first phase a line of the head."""
        return self.calls(name) if self.twin.group else [self.pick(self.header())]

    # ---- calls

    def pull(self, name: str) -> list[str]:
        return self.mutation(name) if self.has_few_pulls and self.chance(0.95) else super().pull(name)

    def inside(self, name: str) -> list[str]:
        """A call of any client, maybe of the one that reads."""
        return super().inside(self.pick((name, *self.clients)))

    def asked(self) -> tuple[str, str]:
        """A mutator with its arguments: where rules are given mostly one of these."""
        if self.chance(0.0005):
            return "set", f'["long","{"x" * self.pick((4095, 65536, 300000))}"]'
        if not self.twin.rules or self.chance(0.3):
            return super().asked()
        names = [name for name in self.twin.rules if name and not {" ", "\n"} & set(name)]
        name = self.pick(names or ["m"])
        if name not in RULES or self.chance(0.1):
            return name, compact(random_rules.some_arguments())
        second = quoted(self.key()) if name == "move" else self.pick((self.whole_value(), "1", "-5", '{"a":1}'))
        return name, f"[{quoted(self.key())},{second}]"

    def odd_body(self) -> str:
        if self.may_end and self.chance(0.2):
            return CLOSING
        return self.pick([body for body in ODD_BODIES if body != CLOSING])

    def cookie(self) -> str:
        now = self.group.cookie
        if self.chance(self.odd_cookies):
            return super().cookie()
        if self.chance(0.1):
            return compact(now)
        order = self.next_order(now["order"] if isinstance(now, dict) else now)
        return order if self.chance(0.7) else self.ordered(order)

    def next_order(self, now: Any) -> str:
        """What is above it as a cookie, mostly; of texts a shorter one may be above, and a longer one below."""
        if not isinstance(now, str):
            return str((now or 0) + self.pick((1, 1, 1, 1, 1, 2, 0, -1)))
        longer = now + self.pick(("a", "1", "é", "ｚ", "😀"))
        if not now:
            return quoted(longer)
        head, last = now[:-1], ord(now[-1])
        if self.chance(0.1):
            return quoted(self.pick((head, f"{head}{chr(last - 1)}zz")))
        above = (f"{head}{chr(last + 1)}", chr(ord(now[0]) + 1), longer if len(now) < 8 else "", f"{head}😀")
        return quoted(max(self.pick(above), self.pick(above)))

    def change(self) -> str:
        """A client's confirmed id: mostly from the one before up to its last."""
        client = uuid_of(self.pick(list(self.clients.values())))
        least, greatest = self.group.confirmed.get(client, 0), min(self.group.last(client), GREATEST_CONFIRMED)
        if self.chance(0.1):
            least, greatest = max(0, least - 2), greatest + 2
        if self.may_end and self.chance(0.2):
            return super().change()
        return f"{self.escaped(client)}:{self.random.randint(least, greatest)}"
