"""Tests of the demo: `python3 -m unittest tests.test_server` in the folder above."""

import sys
from pathlib import Path

DEMO = Path(__file__).resolve().parent.parent
sys.path[:0] = [str(DEMO), str(DEMO.parent / "hosts" / "python" / "src")]
