"""What the tools share of the kit: the repository's crates, lowest first, and a check of one in a folder of its own."""

import os
import re
import shutil
import subprocess
import sys
from pathlib import Path

ROOT = Path(__file__).resolve().parent.parent
ARCHIVE_HEAD, MEMBER_HEAD = b"!<arch>\n", 60
# How a command of the kit is run: what it says is read as one text.
HEARD = {
    "stdin": subprocess.DEVNULL,
    "stdout": subprocess.PIPE,
    "stderr": subprocess.STDOUT,
    "text": True,
    "errors": "replace",
}

sys.dont_write_bytecode = True
sys.path.insert(0, str(Path(shutil.which("rt") or "rt").resolve().parent))
import rtlib  # noqa: E402  (what `rt` itself is made of)


def crates(root=ROOT):
    """The crates of a checkout by their names, each behind those that it stands on."""
    os.chdir(root)  # (`rtlib` looks for the list of crates where it is called)
    found = sorted(rtlib.crates_below(str(root)), key=lambda crate: len(crate.below()))
    return {crate.name: crate for crate in found}


def is_built(crate):
    """Whether the crate's library is there, as `rt ci` or `rt lib` left it."""
    return Path(crate.rlib, "format").is_file()


def members(archive):
    """The names of the files in an archive, as GNU's ar writes one."""
    with archive.open("rb") as file:
        if file.read(len(ARCHIVE_HEAD)) != ARCHIVE_HEAD:
            sys.exit(f"{archive} is no archive")
        names = b""
        while head := file.read(MEMBER_HEAD):
            name, size = head[:16].rstrip(), int(head[48:58])
            if name == b"//":
                names = file.read(size)
            else:
                file.seek(size, os.SEEK_CUR)
                start = int(name[1:]) if name[1:].isdigit() else None
                yield (name if start is None else names[start : names.index(b"\n", start)]).rstrip(b"/").decode()
            file.seek(size % 2, os.SEEK_CUR)


def functions(crate):
    """The functions of a crate, by the checker's names: the archive of its library has the code of each. None where
    there is no library."""
    if not is_built(crate):
        return None
    # (a cycle has a name with a +)
    code = re.compile(rf"(?:part/)?Rattle-{crate.name}-proofs\.((?!.*\.\+).+)\.Code\.oantt")
    found = filter(None, map(code.fullmatch, members(Path(crate.rlib, "toolchain/checked.a"))))
    return {f"{crate.name}::{match[1].replace('.', '::')}" for match in found}


def copy_parts(crate, room):
    """Copies what a check of the crate reads into a folder."""
    for part in rtlib.PARTS:
        if Path(crate.folder, part).is_dir():
            shutil.copytree(Path(crate.folder, part), room / part)


def checked(crate, room, kept, only):
    """Checks the crate as it stands in the folder `room`: these functions and what they call, or all where none are
    named. What is checked is kept in the folder `kept` for the next check. It gives what was said."""
    words = crate.words(["--jobs", "1", "--incremental", str(kept.resolve())], keeps=False)
    for name in sorted(only):
        words += ["--only", name.removeprefix(f"{crate.name}::")]
    return subprocess.run([rtlib.RATTLE, "check", *words], cwd=room, check=False, **HEARD).stdout
