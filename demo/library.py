"""The library that the demo's clients link and load: what `hosts/build` left in hosts/out."""

from __future__ import annotations

import argparse
import os
import subprocess
import sys
from pathlib import Path

HOSTS = Path(__file__).resolve().parent.parent / "hosts"
OUT = HOSTS / "out"


def add_option(parser: argparse.ArgumentParser) -> None:
    """The option by which a command makes the library first."""
    what = "make the library first, where a source is newer: WITHOUT PROOF, to try it"
    parser.add_argument("--unproved", action="store_true", help=what)


def is_there(*, unproved: bool) -> bool:
    """Whether there is a library; what to do where there is none is told."""
    if unproved:
        return subprocess.run([HOSTS / "build", "--unproved"], stdout=sys.stderr, check=False).returncode == 0
    there = (OUT / "libgiqaymu.so").exists() or "GIQAYMU_LIBRARY" in os.environ
    if not there:
        print(
            f"{sys.argv[0]}: there is no library: --unproved makes one without proof, in a minute or two; hosts/build "
            "proves it first, which takes more than an hour",
            file=sys.stderr,
        )
    return there
