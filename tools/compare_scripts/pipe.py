"""What `replicache_serve` answers to each line, as docs/SERVE.md has it."""

import sys
from importlib import import_module
from pathlib import Path
from typing import Any

from model import REBASE, Declined, Group, NoMutator, Rows, mutated
from script import HEADER_WORDS, Client, Fault, Script, expect
from script import kind as kind_of_reply

sys.path.insert(0, str(Path(__file__).resolve().parents[2] / "examples" / "hosts"))
rules: Any = import_module("rules")


class Pipe:
    """A group over a pipe; it takes a line and gives the answer, both without their line feeds."""

    def __init__(self) -> None:
        self.number = 0
        self.script = Script()
        self.rules: dict[str, Any] | None = None
        self.group: Any = None
        self.clients: list[Client] = []

    def answer(self, data: bytes) -> str:
        self.number += 1
        try:
            return f"{self.number} {self.said(data)}"
        except Fault as fault:
            return f"{self.number} fault {fault}"

    def said(self, data: bytes) -> str:
        try:
            line = data.decode("utf-8")
        except UnicodeDecodeError as error:
            raise Fault("not UTF-8") from error
        if not line or line.startswith("#"):
            return "ok"
        if self.group is None and line.split(" ")[0] == "rules":
            self.rules = self.rules_in(line)
            return "ok"
        call = self.script.read_line(self.number, line)
        if call is not None:
            reply = self.clients[call.client].reply(self.group, call.command, call.words)
            return f"{self.script.names[call.client]} {reply}"
        if self.group is None and self.script.phases:
            self.open()
        return "ok"

    def rules_in(self, line: str) -> dict[str, Any]:
        expect(line != "rules", "bad words")
        try:
            right: dict[str, Any] = rules.read(line.removeprefix("rules ").encode())
        except rules.Fault as fault:
            raise Fault(f"rules {fault}") from fault
        expect(self.rules is None, "said twice")
        return right

    def open(self) -> None:
        run = mutated if self.rules is None else self.run_rule
        self.group = Group(self.script.identity(), run)
        self.clients = [Client(id) for id in self.script.ids]

    def run_rule(self, name: str, args: Any, why: str, rows: Rows) -> Rows:
        """The map after a mutator ran on it; those of scripts, too, as rules.py has them."""
        try:
            after: Rows = rules.run(self.rules, name, args, rows, why == REBASE)
        except rules.Refused as refused:
            raise Declined(refused.code) from refused
        except rules.Unknown as unknown:
            raise NoMutator from unknown
        return after


def kind(line: bytes, answer: str) -> str:
    """Of a line and its answer, which one it is: what was taken, the fault without its place, or the reply."""
    word = line.decode(errors="replace").split(" ")[0]
    said = answer.split(" ", 1)[1]
    if said.startswith("fault rules /"):
        return f"fault rules: {said.split(': ', 1)[1]}"
    if said.startswith("fault "):
        is_late = said == "fault unknown client" and word in (*HEADER_WORDS, "rules")
        return f"{said} (a header line)" if is_late else said
    if said == "ok":
        return f"ok ({'empty' if not line else 'comment' if word.startswith('#') else word})"
    return kind_of_reply(said.split(" ", 1)[1])
