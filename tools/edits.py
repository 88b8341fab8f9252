"""Must-fail edits: what each changes, and what a check says of the functions that it changes.

An edit is a file with lines `file: PATH`, and pairs of lines `old: TEXT` and `new: TEXT`, as the kit reads them; each
old text stands once in its file. A line `# refused: GOAL` says for which goal
its own function has to be refused, and `# refused only: GOAL` that all else of this function has to be proved: such an
edit may change the function's proof too.
"""

import re
from collections.abc import Iterable, Iterator
from dataclasses import dataclass
from functools import cached_property
from pathlib import Path

# The head of a function; its indentation tells how deep it stands.
HEAD = re.compile(r'^(\s*)(?:pub(?:\([a-z]+\))? )?(?:const )?(?:unsafe )?(?:extern "\w+" )?fn (\w+)')
CYCLE = re.compile(r"#\[cycle\((\w+)\)\]")
# The file of a function's own proof, by the function's module and name.
PROOF = re.compile(r"proofs/(?:(.+)/)?(\w+)/(?:Answers|Invariants|Proof)\.antt")
# What a function is refused for where its text lacks a part that its proof needs.
LACKS = re.compile(r"expected (a measure|an invariant)\b")
# A proof that names what is there no more: this says nothing of a clause.
NAMES_LOST = re.compile(r"has no field|is not in scope|has no `|was not admitted|is no name")
VERDICT = re.compile(r"^fn (\S+): (not proved|no proof|could not tell)(.*)$", re.M)
UNPROVED = re.compile(r"did not prove ((?:`[^`]+`(?:, | and )?)+)")
OPEN_GOAL = re.compile(r"^(?:\./)?proofs/(\S+)\.antt:\d+:\d+: error: `([^`]+)`(.*)$", re.M)


class Fault(Exception):
    """Why an edit can't be applied."""


@dataclass(frozen=True)
class Place:
    """A function of a file below src/, by its module and name; or, where there is no name, any part that is in no
    function."""

    module: str
    function: str | None
    is_cycle: bool = False

    @property
    def proofs(self) -> str | None:
        """The folder below proofs/ that has the one proof of a cycle's functions; none of another function."""
        return f"{self.module.replace('::', '/')}/+{self.function}" if self.is_cycle else None

    def among(self, crate: str, names: Iterable[str]) -> set[str]:
        """Those of the checker's names that are this function's, that of a closure in it, or of its cycle. A method
        bears the module of its type, which may stand in another file: where no name has this module the function's
        alone decides."""
        if self.function is None:
            return set(names)
        inside = f"{crate}::{self.module}::" if self.module else f"{crate}::"
        here = {name for name in names if name.startswith(inside)}
        if self.is_cycle:
            return here
        named = {name for name in names if self.function in re.split(r"::|\.|\+", name)}
        return named & here or named


def pairs(lines: Iterable[str]) -> Iterator[tuple[str | None, str | None, str]]:
    """Of each pair of an edit: the file, the old text and the new one."""
    path = old = None
    for line in lines:
        if line.startswith("file: "):
            path = line.removeprefix("file: ").strip()
        elif line.startswith("old: "):
            old = line.removeprefix("old: ")
        elif line.startswith("new:"):
            yield path, old, line.removeprefix("new:").removeprefix(" ")
            old = None


def function_round(text: str, at: int, module: str) -> Place:
    """The function that stands round a place in a text: the last head above it with less indentation than its line."""
    lines = text[:at].split("\n")
    lines[-1] += text[at:].partition("\n")[0]
    deep = len(lines[-1]) - len(lines[-1].lstrip())
    for number in range(len(lines) - 1, -1, -1):
        head = HEAD.match(lines[number])
        if head and (number == len(lines) - 1 or len(head[1]) < max(deep, 1)):
            cycle = cycle_above(lines[:number])
            return Place(module, cycle or head[2], cycle is not None)
    return Place(module, None)


def cycle_above(lines: list[str]) -> str | None:
    """The cycle that the attributes over a function's head say, if they do."""
    for line in reversed(lines):
        if not line.strip().startswith(("#[", "//")):
            return None
        cycle = CYCLE.search(line)
        if cycle:
            return cycle[1]
    return None


def module_of(path: str) -> str:
    """The module of a file below src/."""
    parts = path.removeprefix("src/").removesuffix(".rt").split("/")
    return "::".join(part for part in parts if part not in ("lib", "main", "mod"))


@dataclass(frozen=True)
class Edit:
    """An edit of a crate's folder must-fail/."""

    file: Path

    @property
    def folder(self) -> Path:
        """The crate's."""
        return self.file.parent.parent

    @property
    def name(self) -> str:
        """The crate's name and the edit's."""
        return f"{self.folder.name}/{self.file.stem}"

    @cached_property
    def text(self) -> str:
        """The edit's own text."""
        return self.file.read_text(encoding="utf-8")

    @property
    def goal(self) -> str | None:
        """The goal for which its own function has to be refused."""
        said = re.search(r"^# refused(?: only)?: (.+)$", self.text, re.M)
        return said[1].strip() if said else None

    @property
    def is_for_one_goal(self) -> bool:
        """Whether it has to be refused for that goal alone."""
        return re.search(r"^# refused only: ", self.text, re.M) is not None

    def applied(self, texts: dict[str, str]) -> dict[str, str]:
        """The texts of the files with it, beside what other edits made of them; a `Fault` where it can't be applied."""
        made, count = dict(texts), 0
        for path, old, new in pairs(self.text.split("\n")):
            count += 1
            if not path or not old:
                raise Fault("a 'new:' line stands before its 'file:' or 'old:' line")
            if path not in made:
                if not (self.folder / path).is_file():
                    raise Fault(f"there is no file {path}")
                made[path] = (self.folder / path).read_text(encoding="utf-8")
            found = made[path].count(old)
            if found != 1:
                raise Fault(f"its old text is in {path} {found} times: {old.strip()[:80]}")
            made[path] = made[path].replace(old, new)
        if not count:
            raise Fault("it has no pair of 'old:' and 'new:'")
        return made

    @cached_property
    def places(self) -> frozenset[Place]:
        """The functions that it changes."""
        found = set()
        for path, old, _ in pairs(self.text.split("\n")):
            proof = PROOF.fullmatch(path or "")
            if proof:
                found.add(Place((proof[1] or "").replace("/", "::"), proof[2]))
            elif path is None or old is None or not path.startswith("src/"):
                found.add(Place(str(path), None))
            else:
                text = (self.folder / path).read_text(encoding="utf-8")
                if old in text:  # (else an earlier pair made it, whose place it has)
                    found.add(function_round(text, text.find(old) + len(old) - len(old.lstrip()), module_of(path)))
        return frozenset(found)

    @property
    def is_alone(self) -> bool:
        """Whether nothing else can be judged beside it: it changes what is in no function, or leaves one with no proof
        at all, of whose callers the checker then says nothing."""
        return any(place.function is None for place in self.places) or LACKS.search(f"expected {self.goal}") is not None


def edits_of(crate_folder: Path) -> list[Edit]:
    """The edits of a crate, by their names."""
    return [Edit(file) for file in sorted((crate_folder / "must-fail").glob("*.edit"))]


def rounds(edits: list[Edit]) -> list[list[Edit]]:
    """The edits in rounds: in one round no two change the same function, and each can be applied behind the others."""
    made: list[list[Edit]] = []
    for edit in edits:
        fitting = (one for one in made if all(fit(edit, other) for other in one) and can_follow(edit, one))
        one = next(fitting, None)
        if one is None:
            made.append([edit])
        else:
            one.append(edit)
    return made


def fit(edit: Edit, other: Edit) -> bool:
    """Whether two edits can be tried in one check."""
    return not edit.is_alone and not other.is_alone and not edit.places & other.places


def can_follow(edit: Edit, others: list[Edit]) -> bool:
    """Whether the edit can be applied behind the others, which might have written its old text too."""
    texts: dict[str, str] = {}
    try:
        for each in [*others, edit]:
            texts = each.applied(texts)
    except Fault:
        return False
    return True


def open_goals(said: str) -> dict[str, list[str]]:
    """The goals that are open in files of proofs, by the folders that these lie in: a function's own, or "" for
    lemmas."""
    found: dict[str, list[str]] = {}
    for path, goal, why in OPEN_GOAL.findall(said):
        if not NAMES_LOST.search(re.sub(r"`[^`]*`", "", why)):
            found.setdefault(path.rpartition("/")[0], []).append(goal)
    return found


def refusals(crate: str, said: str) -> dict[str, list[str]]:
    """The functions that a check refused for their own sake, with the goals that are open. That a function calls one
    that isn't proved is no refusal of it; nor is a proof that names what the edit took away."""
    by_folders = open_goals(said)
    found: dict[str, list[str]] = {}
    for name, _, why in VERDICT.findall(said):
        goals = [goal for names in UNPROVED.findall(why) for goal in re.findall(r"`([^`]+)`", names)]
        goals += LACKS.findall(why)
        goals += by_folders.get(name.removeprefix(f"{crate}::").replace("::", "/"), [])
        if goals or not re.search(r"\bit (calls|passes)\b", why):
            found[name] = goals
    return found


def told(crate: str, edits: list[Edit], said: str, functions: set[str]) -> tuple[dict[Edit, list[str]], list[str]]:
    """Of each edit of a round the goals for which its own functions are refused, and the refused functions that none
    changes; `functions` are those of the crate. Of one that changes a definition the lemmas that fail are goals too."""
    found, by_folders = refusals(crate, said), open_goals(said)
    of_edits, explained = {}, set()
    for edit in edits:
        mine = found.keys() & set().union(*(place.among(crate, functions | found.keys()) for place in edit.places))
        explained |= mine
        of_edits[edit] = [goal for name in sorted(mine) for goal in found[name]]
        of_edits[edit] += [goal for place in edit.places if place.proofs for goal in by_folders.get(place.proofs, [])]
        if any(place.function is None for place in edit.places):
            of_edits[edit] += by_folders.get("", [])
    return of_edits, sorted(found.keys() - explained)
