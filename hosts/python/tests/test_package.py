"""The package installs into an empty environment, and the first ten lines of docs/SYNC.md run there."""

from __future__ import annotations

import importlib.util
import os
import subprocess
import sys
import tempfile
import textwrap
import unittest
import zipfile
from pathlib import Path

from giqaymu import version
from server import Server
from todo import RULES_AT_SERVER

ROOT = Path(__file__).resolve().parents[3]
PACKAGE = ROOT / "hosts" / "python"
LACKING = [name for name in ("pip", "setuptools", "wheel", "urllib3") if importlib.util.find_spec(name) is None]


def run(*words: str | Path, cwd: Path, **environ: str) -> str:
    """What a command prints, without the variables that would name this tree."""
    hidden = ("PYTHONPATH", "GIQAYMU_LIBRARY")
    words_of = {name: value for name, value in os.environ.items() if name not in hidden}
    done = subprocess.run([str(word) for word in words], cwd=cwd, env={**words_of, **environ}, timeout=120,
                          capture_output=True, text=True, check=False)
    if done.returncode != 0:
        raise AssertionError(f"{words}: status {done.returncode}\n{done.stdout}\n{done.stderr}")
    return done.stdout


class Package(unittest.TestCase):
    """What a user does with it."""

    @unittest.skipIf(LACKING, f"there is no {LACKING}")
    def test_it_installs_and_the_first_lines_run(self) -> None:
        server = Server(RULES_AT_SERVER)
        self.addCleanup(server.end)
        with tempfile.TemporaryDirectory() as name:
            room = Path(name)
            pip = [sys.executable, "-m", "pip", "--disable-pip-version-check"]
            run(*pip, "wheel", "-q", "--no-build-isolation", "--no-deps", "--no-index", "-w", room, PACKAGE, cwd=room)
            major, minor, patch, _ = version()
            (wheel,) = room.glob(f"giqaymu-{major}.{minor}.{patch}-py3-none-*.whl")
            names = zipfile.ZipFile(wheel).namelist()
            self.assertIn("giqaymu/libgiqaymu.so", names)
            self.assertIn("giqaymu/py.typed", names)
            run(*pip, "install", "-q", "--no-deps", "--no-index", "--target", room / "site", wheel, cwd=room,
                PIP_ROOT_USER_ACTION="ignore")
            title, _, *lines = (ROOT / "docs" / "SYNC.md").read_text(encoding="utf-8").splitlines()[:10]
            self.assertTrue(title.startswith("# "))
            program = textwrap.dedent("\n".join(lines)).replace("http://127.0.0.1:8080", server.url)
            self.assertEqual(program.count(server.url), 2)
            program += "\n    import time; time.sleep(0.2)\nprint(giqaymu.__file__)\n"
            (room / "first.py").write_text(program, encoding="utf-8")
            told = run(sys.executable, "-W", "error", "first.py", cwd=room, PYTHONPATH=str(room / "site"))
            self.assertEqual(told.splitlines()[-1], str(room / "site" / "giqaymu" / "__init__.py"))
            self.assertIn("Row(key='todo/x', value='milk')", told)
            self.assertEqual(server.space.values(), {"todo/x": "milk"})
            self.assertEqual(len(list((room / "state").glob("*.journal"))), 1)

    def test_the_edge_needs_no_urllib3(self) -> None:
        code = "import sys; sys.modules['urllib3'] = None; import giqaymu; giqaymu.Replicache(rules={}).close()"
        run(sys.executable, "-c", code, cwd=ROOT, PYTHONPATH=str(PACKAGE / "src"),
            GIQAYMU_LIBRARY=os.environ.get("GIQAYMU_LIBRARY", ""))


if __name__ == "__main__":
    unittest.main()
