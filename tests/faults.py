"""Runs a program whose calls for memory and threads, reads and writes fail as it is told (faults.c says how)."""
from __future__ import annotations

import contextlib
import os
import pathlib
import shutil
import subprocess
import tempfile
from collections.abc import Callable, Iterator, Sequence

# A program and its arguments.
Words = Sequence[str]

HERE = pathlib.Path(__file__).resolve().parent


def compiler() -> str | None:
    """Returns the C compiler, or None if there is none."""
    return shutil.which(os.environ.get("CC", "cc")) or shutil.which("gcc")


@contextlib.contextmanager
def shim() -> Iterator[str]:
    """Gives the path of faults.c, compiled to be called in place of the C library."""
    with tempfile.TemporaryDirectory() as folder:
        # Another user may read it.
        os.chmod(folder, 0o755)
        made, cc = f"{folder}/faults.so", compiler()
        assert cc, "there is no C compiler"
        subprocess.run([cc, "-shared", "-fPIC", "-O1", "-o", made, HERE / "faults.c", "-ldl"], check=True)
        yield made


def run(
    path: str, command: Words, script: bytes = b"", before: Callable[[], object] | None = None, **faults: int,
) -> tuple[int, bytes, bytes]:
    """Returns the status, the output and the words on standard error of a run, before which its process calls a function."""
    env = {**os.environ, "LD_PRELOAD": path, **{name: str(value) for name, value in faults.items()}}
    # A file, since a pipe gives a read no more than was written so far.
    with tempfile.TemporaryFile() as given:
        given.write(script)
        given.seek(0)
        done = subprocess.run(command, stdin=given, capture_output=True, env=env, preexec_fn=before)
    return done.returncode, done.stdout, done.stderr


def counted(path: str, command: Words, script: bytes = b"", **faults: int) -> tuple[int, bytes, int, int]:
    """Returns the status and the output of a run, and how often it asked for memory and how often it read."""
    status, out, told = run(path, command, script, None, COUNT=1, **faults)
    growths, reads = map(int, told.split()[-2:])
    return status, out, growths, reads


def growths(path: str, command: Words, script: bytes = b"", **faults: int) -> int:
    """Returns how often a run that succeeds asks for memory."""
    status, _, count, _ = counted(path, command, script, **faults)
    assert status == 0, (command, status)
    return count
