"""Runs what tests consist of, each for a limited time and in a session of its own, so that nothing of it lives on."""
from __future__ import annotations

import contextlib
import os
import pathlib
import re
import resource
import signal
import subprocess
import tempfile
import time
from collections.abc import Iterator, Mapping
from typing import IO, Any, NamedTuple, Optional

# The status of a program that took too long, which is that of timeout(1).
TOO_LONG = 124
# How many processes are asked for their stacks at most, and how long each may take for that, in seconds.
_MOST_ASKED, _ASKING = 20, 5.0
# How long it is tried to end all processes, in seconds: one that waits for a disk ends later.
_ENDING = 30.0


class Done(NamedTuple):
    """How a program ended: its status, None if it took too long, and what it printed."""

    status: Optional[int]
    said: str


class Tests(NamedTuple):
    """How many tests of a file of unittest passed, failed and were skipped, and what it printed."""

    passed: int
    failed: int
    skipped: int
    said: str


def run(*words: str | pathlib.Path, seconds: float, env: Optional[Mapping[str, str]] = None, **settings: Any) -> Done:
    """Runs a program, and then ends what it has left running.

    One that takes longer is ended, too. Its processes of Python print the stacks of their threads before.
    """
    environment = {**(os.environ if env is None else env), "PYTHONFAULTHANDLER": "1"}
    # A pipe would be read until the last process ends that has it.
    with tempfile.TemporaryFile("w+", errors="replace") as said:
        process = subprocess.Popen(
            words, stdin=subprocess.DEVNULL, stdout=said, stderr=subprocess.STDOUT, start_new_session=True,
            env=environment, **settings,
        )
        status = None
        try:
            try:
                status = process.wait(seconds)
            except subprocess.TimeoutExpired:
                said.write(_too_long(seconds))
                _print_stacks(process, said)
        finally:
            _end(process)
        said.seek(0)
        return Done(status, said.read())


def run_tests(
    *words: str | pathlib.Path, seconds: float, env: Optional[Mapping[str, str]] = None, **settings: Any,
) -> Tests:
    """Runs a file of unittest. One that doesn't end, or fails and names no test that failed, is one failed test."""
    done = run(*words, seconds=seconds, env=env, **settings)
    tests = int((re.search(r"^Ran (\d+) test", done.said, re.MULTILINE) or [0, 0])[1])
    skipped = int((re.search(r"skipped=(\d+)", done.said) or [0, 0])[1])
    failed = len(re.findall(r"^(?:FAIL|ERROR): ", done.said, re.MULTILINE))
    if done.status != 0 or not tests:
        failed = max(failed, 1)
    return Tests(max(tests - failed - skipped, 0), failed, skipped, done.said)


def completed(
    *words: str | pathlib.Path, seconds: float, input: Any = None, **settings: Any,
) -> subprocess.CompletedProcess[Any]:
    """Runs a program as subprocess.run does, and captures what it prints. One that takes longer is ended, and has failed."""
    if input is not None:
        settings["stdin"] = subprocess.PIPE
    process: subprocess.Popen[Any] = subprocess.Popen(
        words, stdout=subprocess.PIPE, stderr=subprocess.PIPE, start_new_session=True, **settings)
    with process:
        try:
            told = process.communicate(input, seconds)
        except subprocess.TimeoutExpired:
            _end(process)
            told = process.communicate()
            why = _too_long(seconds)
            error = told[1] + (why if isinstance(told[1], str) else why.encode())
            return subprocess.CompletedProcess(words, TOO_LONG, told[0], error)
        except BaseException:
            _end(process)
            raise
    return subprocess.CompletedProcess(words, process.returncode, *told)


def _too_long(seconds: float) -> str:
    return f"\nIt took longer than {seconds:.0f} s, and was ended.\n"


def _print_stacks(process: subprocess.Popen[Any], said: IO[str]) -> None:
    """Aborts a session's processes of Python, one after the other; faulthandler prints what their threads were at."""
    asked = sorted(each for each in _session(process.pid) if "python" in each[1].partition(" ")[0])
    for pid, command in asked[:_MOST_ASKED]:
        said.write(f"\nProcess {pid}, {command}\n")
        said.flush()
        try:
            resource.prlimit(pid, resource.RLIMIT_CORE, (0, 0))
            os.kill(pid, signal.SIGABRT)
        except ProcessLookupError:
            continue
        until = time.monotonic() + _ASKING
        while time.monotonic() < until and any(pid == other for other, _ in _session(process.pid)):
            process.poll()
            time.sleep(0.02)


def _session(leader: int) -> Iterator[tuple[int, str]]:
    """The numbers and the commands of a session's processes that run."""
    for folder in pathlib.Path("/proc").glob("[0-9]*"):
        try:
            state, _, _, session = folder.joinpath("stat").read_text().rpartition(")")[2].split()[:4]
            command = folder.joinpath("cmdline").read_bytes().replace(b"\0", b" ").decode(errors="replace").strip()
        except (OSError, ValueError):
            continue
        if int(session) == leader and state != "Z":
            yield int(folder.name), command


def _end(process: subprocess.Popen[Any]) -> None:
    """Ends all processes of a session, also those that are forked meanwhile."""
    until = time.monotonic() + _ENDING
    while (found := [pid for pid, _ in _session(process.pid)]) and time.monotonic() < until:
        for pid in found:
            with contextlib.suppress(ProcessLookupError):
                os.kill(pid, signal.SIGKILL)
        process.poll()
        time.sleep(0.01)
    process.wait()
