"""Runs a built program with an allocation refused, by `refusing.c`. It needs a C compiler and Linux."""

import os
import subprocess
from pathlib import Path

SOURCE = Path(__file__).with_name("refusing.c")


def shim_in(room):
    """Builds what refuses allocations, in a folder."""
    shim = Path(room, "refusing.so")
    subprocess.run(["cc", "-shared", "-fPIC", "-O1", str(SOURCE), "-o", str(shim), "-ldl"], check=True)
    return shim


def run(program, given, shim, number, between_marks=False, folder=None):
    """The ended process, run in that folder: `number` counts from 1, or is `all`. `None` refuses none."""
    told = {} if number is None else {"LD_PRELOAD": str(shim), "REFUSED_ALLOCATION": str(number)}
    if between_marks:
        told["BETWEEN_MARKS"] = "1"
    return subprocess.run(
        [program], input=given, capture_output=True, check=False, env={**os.environ, **told}, timeout=120, cwd=folder
    )


def met_refusal(process):
    return b"refused\n" in process.stderr
