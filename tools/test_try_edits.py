#!/usr/bin/env python3
"""Tests `tools/try-edits` on a crate of three functions, which is proved here: some twenty seconds.

    tools/test_try_edits.py
"""

import shutil
import subprocess
import sys
import tempfile
import threading
import unittest
from pathlib import Path

import edits
import kit

CRATE = """\
//! Three functions, whose wrong bodies are tried.
#![tactic(auto)]
ghost use Rattle.std.specs.Prelude.{◌≡◌, ◌≤◌};

pub fn greater(x: u64, y: u64) -> u64
    ensures first { x ≤ result }
    ensures second { y ≤ result }
{
    if x < y { y } else { x }
}

pub fn handed_on(x: u64) -> u64
    ensures same { result ≡ x }
{
    x
}

pub fn handed_on_twice(x: u64) -> u64
    ensures { result ≡ x }
{
    handed_on(x)
}
"""
LESS = "old: if x < y\nnew: if y < x\n"


class TryEdits(unittest.TestCase):
    """Each test is one run of the tool over the same proved crate. `goal` is one for which LESS is refused, as --write
    has it."""

    @classmethod
    def setUpClass(cls):
        cls.room = tempfile.TemporaryDirectory(prefix="giqaymu-toy-")
        cls.addClassCleanup(cls.room.cleanup)
        cls.root = Path(cls.room.name)
        (cls.root / "crates.txt").write_text("toy:\n")
        (cls.root / ".git").mkdir()
        cls.crate = cls.root / "crates/toy"
        (cls.crate / "src").mkdir(parents=True)
        (cls.crate / "src/lib.rt").write_text(CRATE, encoding="utf-8")
        (cls.crate / "must-fail").mkdir()
        ran = subprocess.run(["rt", "lib"], cwd=cls.crate, check=False, **kit.HEARD)
        if ran.returncode:
            raise AssertionError(ran.stdout)
        _, cls.unnamed = cls.tried("--write", takes_the_less=LESS)
        written = (cls.crate / "must-fail/takes_the_less.edit").read_text().splitlines()[-1]
        cls.goal = written.removeprefix("# refused: ")

    @classmethod
    def tried(cls, *flags, **edits):
        """Runs the tool on edits of these names and pairs; gives its status and what it printed, by edits."""
        for file in (cls.crate / "must-fail").iterdir():
            file.unlink()
        for name, pairs in edits.items():
            (cls.crate / f"must-fail/{name}.edit").write_text(f"file: src/lib.rt\n{pairs}", encoding="utf-8")
        tool = Path(__file__).with_name("try-edits")
        ran = subprocess.run([sys.executable, tool, "--anew", "--root", cls.root, *flags], check=False, **kit.HEARD)
        return ran.returncode, ran.stdout

    def test_an_edit_that_names_no_goal_fails(self):
        self.assertIn("FAILED toy/takes_the_less: it names no goal", self.unnamed)

    def test_an_edit_that_changes_nothing_fails(self):
        status, said = self.tried(means_the_same="old: if x < y\nnew: if x <= y\n# refused: returns\n")
        self.assertIn("FAILED toy/means_the_same: NOT REFUSED", said)
        self.assertEqual(status, 1)

    def test_an_edit_that_breaks_another_function_alone_fails(self):
        promises_less = "old: ensures same { result ≡ x }\nnew: ensures same { result ≡ result }\n# refused: returns\n"
        status, said = self.tried(promises_less=promises_less)
        self.assertIn("FAILED toy/promises_less: NOT REFUSED", said)
        self.assertEqual(status, 1)

    def test_where_the_crate_itself_is_not_proved_no_edit_passes(self):
        (self.crate / "src/lib.rt").write_text(CRATE.replace("    x\n", "    x / 2\n"), encoding="utf-8")
        try:
            status, said = self.tried(halves="old: handed_on(x)\nnew: handed_on(x) / 2\n# refused: returns\n")
        finally:
            (self.crate / "src/lib.rt").write_text(CRATE, encoding="utf-8")
        self.assertIn("FAILED toy/halves: toy::handed_on: refused, and no edit of the round changes it", said)
        self.assertEqual(status, 1)

    def test_a_wrong_body_passes_also_where_another_edit_of_its_round_does_not(self):
        means_the_same = "old: handed_on(x)\nnew: handed_on(x + 0)\n# refused: returns\n"
        status, said = self.tried(means_the_same=means_the_same, takes_the_less=f"{LESS}# refused: {self.goal}\n")
        self.assertIn(f"toy/takes_the_less: refused for {self.goal}", said)
        self.assertEqual(said.splitlines()[-1], "1 passed, 1 failed")
        self.assertEqual(status, 1)

    def test_two_edits_of_one_function_are_tried_in_two_rounds(self):
        of_greater, of_another = "old: { y } else\nnew: { x } else\n", "old: handed_on(x)\nnew: handed_on(1)\n"
        _, said = self.tried("--dry", less=LESS, least=of_greater, one=of_another)
        self.assertEqual(said.splitlines(), ["toy, round 1: least, one", "toy, round 2: less"])

    def test_an_edit_whose_old_text_another_one_writes_is_tried_in_another_round(self):
        writes_it = "old: { y } else\nnew: { handed_on(x) } else\n"
        _, said = self.tried("--dry", calls=writes_it, one="old: handed_on(x)\nnew: handed_on(1)\n")
        self.assertEqual(said.splitlines(), ["toy, round 1: calls", "toy, round 2: one"])

    def test_an_edit_that_is_refused_for_another_goal_than_it_names_fails(self):
        status, said = self.tried(takes_the_less=f"{LESS}# refused: returns-clause-third\n")
        self.assertIn("FAILED toy/takes_the_less: not refused for the goal that it names, returns-clause-third", said)
        self.assertEqual(status, 1)

    def test_an_edit_that_has_to_be_refused_for_one_goal_alone_fails_where_another_one_is_open(self):
        breaks_both = "old: if x < y { y } else { x }\nnew: { let _ = (x, y); 0 }\n"
        status, said = self.tried(breaks_both=f"{breaks_both}# refused only: returns-clause-first\n")
        self.assertIn("FAILED toy/breaks_both: not refused for returns-clause-first alone", said)
        self.assertEqual(status, 1)

    def test_an_edit_that_changes_a_proof_too_is_one_of_its_function(self):
        answers = self.crate / "proofs/greater/Answers.antt"
        answers.parent.mkdir(parents=True)
        self.addCleanup(shutil.rmtree, self.crate / "proofs")
        answers.write_text("-- one\n")
        with_proof = f"{LESS}file: proofs/greater/Answers.antt\nold: one\nnew: another\n"
        _, said = self.tried("--dry", less=with_proof, one="old: handed_on(x)\nnew: handed_on(1)\n")
        self.assertEqual(said.splitlines(), ["toy, round 1: less, one"])

    def test_a_function_that_c_calls_is_one(self):
        text = 'fn first() {\n    1\n}\n\npub extern "C" fn second() {\n    2\n}\n'
        self.assertEqual(edits.function_round(text, text.index("2"), "exports"), edits.Place("exports", "second"))

    def test_beside_a_run_that_proves_a_copy_a_crate_waits_until_it_is_told(self):
        with tempfile.TemporaryDirectory(prefix="giqaymu-copy-") as room:
            copy, said = Path(room, "copy"), Path(room, "copy/said")
            shutil.copytree(self.root, copy, ignore=shutil.ignore_patterns("must-fail"))
            said.write_text("rt: toyish proved\n")
            timer = threading.Timer(3, said.write_text, ["rt: toyish proved\nrt: toy proved\n"])
            timer.start()
            _, told = self.tried("--beside", copy, takes_the_less=f"{LESS}# refused: {self.goal}\n")
            self.assertFalse(timer.is_alive())
            self.assertEqual(told.splitlines()[-1], "1 passed, 0 failed")
            said.write_text("rt: toy is kept: an earlier run on this machine proved the same files\n")
            _, told = self.tried("--beside", copy, takes_the_less=f"{LESS}# refused: {self.goal}\n")
            self.assertEqual(told.splitlines()[-1], "1 passed, 0 failed")
            shutil.rmtree(copy / "crates/toy/out")
            said.write_text("rt: toy NOT PROVED\n0 passed, 1 failed\n")
            _, told = self.tried("--beside", copy, takes_the_less=f"{LESS}# refused: {self.goal}\n")
            self.assertIn("FAILED toy/takes_the_less: NOT TRIED: toy has no library", told)

    def test_an_edit_that_does_not_compile_fails(self):
        status, said = self.tried(is_no_rust="old: if x < y\nnew: if x < z\n# refused: returns\n")
        self.assertIn("FAILED toy/is_no_rust: NOT TRIED", said)
        self.assertEqual(status, 1)


if __name__ == "__main__":
    unittest.main()
