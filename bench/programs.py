"""The programs that timings of bench/ ask, each a process that answers the lines that it is given before it waits for more."""
from __future__ import annotations

import contextlib
import itertools
import os
import pathlib
import subprocess
import threading
import time
from typing import IO, Iterable

ROOT = pathlib.Path(__file__).resolve().parent.parent
# The program as it is built (README.md), or the one that the environment names.
PROGRAM = pathlib.Path(os.environ.get("FTS", ROOT / "crates/fts/out/fts"))


# The clock of another process lacks what a thread of it has run since it was last put on a processor. In so many seconds, a program that has
# answered waits for the next line, so that nothing is lacking.
ASLEEP = 0.002


def resident_of(process: int | str) -> float:
    """How many megabytes (10^6 bytes) of a process are resident."""
    status = pathlib.Path(f"/proc/{process}/status").read_text()
    return next(int(line.split()[1]) for line in status.splitlines() if line.startswith("VmRSS")) * 1024 / 1e6


class Session:
    """A run of a program whose standard input and output are pipes."""

    def __init__(self, *command: str | pathlib.Path) -> None:
        self.command = [str(word) for word in command]
        self.program = subprocess.Popen(
            self.command, stdin=subprocess.PIPE, stdout=subprocess.PIPE, stderr=subprocess.DEVNULL, text=True, encoding="utf-8")
        assert self.program.stdin and self.program.stdout
        self.input: IO[str] = self.program.stdin
        self.output: IO[str] = self.program.stdout
        # The clock of all processor time of the process.
        self.clock = (~self.program.pid << 3) | 2

    def ask(self, lines: Iterable[str], replies: int) -> tuple[list[str], float]:
        """So many lines of replies, and the microseconds of the program's processor time until they were there."""
        began = time.clock_gettime(self.clock)
        writing = threading.Thread(target=self._write, args=(lines,))
        writing.start()
        found = [self._reply() for _ in range(replies)]
        writing.join()
        time.sleep(ASLEEP)
        return found, (time.clock_gettime(self.clock) - began) * 1e6

    def _write(self, lines: Iterable[str]) -> None:
        """Writes the lines 1,000 at a time, so that the program seldom waits for the rest of them. If it ends, its missing replies tell that."""
        left = iter(lines)
        with contextlib.suppress(BrokenPipeError):
            while some := [line + "\n" for line in itertools.islice(left, 1_000)]:
                self.input.write("".join(some))
                self.input.flush()

    def _reply(self) -> str:
        line = self.output.readline()
        if not line:
            raise RuntimeError(f"{pathlib.Path(self.command[0]).name} ended with {self.program.wait()} before it had answered")
        return line.rstrip("\n")

    def resident(self) -> float:
        """How many megabytes (10^6 bytes) are resident."""
        return resident_of(self.program.pid)

    def end(self) -> None:
        self.input.close()
        self.program.wait()


def run(*command: str | pathlib.Path) -> str:
    """The output of a command; RuntimeError with the last line that it wrote about its failure if it fails."""
    done = subprocess.run([str(word) for word in command], capture_output=True, text=True)
    if done.returncode:
        said = done.stderr.strip().splitlines()
        raise RuntimeError(f"{command[0]} failed with {done.returncode}: {said[-1] if said else 'it said nothing'}")
    return done.stdout


def succeeds(*command: str) -> bool:
    """Whether there is such a command, and it succeeds."""
    try:
        return subprocess.run(command, stdin=subprocess.DEVNULL, capture_output=True).returncode == 0
    except FileNotFoundError:
        return False
