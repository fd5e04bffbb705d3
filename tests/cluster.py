#!/usr/bin/env python3
"""Tests `dilforec.cluster` over four Dask workers on this machine, and the joins that it is made of.

    python3 tests/cluster.py

Link the shared object first: bindings/python/link.py. Dask's `distributed` may be that of another Python than the one
that runs this: $DILFOREC_PYTHON, or the system's, for which Debian has python3-distributed. If none has it, it is
installed by apt-get, if this runs as root on a machine that has it, or from pip's index, if that can be reached, unless
DILFOREC_INSTALL is 0; else what needs it is skipped, and counted as that. The last line is 'N passed, M failed'.
"""
from __future__ import annotations

import contextlib
import os
import pathlib
import re
import shlex
import shutil
import signal
import subprocess
import sys
import tempfile
import time
from collections.abc import Iterable, Iterator, Mapping, Sequence
from pathlib import Path
from typing import Any

import processes
from counts import Counts
from debian import install
from processes import Done, run_tests

ROOT = pathlib.Path(__file__).resolve().parents[1]
PACKAGE = ROOT / "bindings/python"
SHARED = PACKAGE / "dilforec/libdilforec.so"
OUT = ROOT / "bindings/out"

counts = Counts("cluster")


def environment(*paths: str | Path) -> dict[str, str]:
    return {**os.environ, "PYTHONPATH": os.pathsep.join(map(str, paths)), "PYTHONDONTWRITEBYTECODE": "1"}


def run(*words: str | Path, seconds: float = 240, **settings: Any) -> Done:
    """How a command ended, and what it printed. What it left running ends with it."""
    return processes.run(*words, seconds=seconds, **settings)


def imports_distributed(python: str, *paths: str | Path) -> bool:
    return bool(shutil.which(python)) and run(python, "-c", "import distributed", env=environment(*paths)).status == 0


def with_distributed() -> tuple[str, list[Path]] | None:
    """A Python that has `distributed`, and the folders that it needs on its path; None if there is none."""
    for python in (os.environ.get("DILFOREC_PYTHON"), sys.executable, "/usr/bin/python3"):
        if python and imports_distributed(python):
            return python, []
    if os.environ.get("DILFOREC_INSTALL") == "0":
        return None
    install(counts, "python3-distributed")
    if imports_distributed("/usr/bin/python3"):
        return "/usr/bin/python3", []
    folder = OUT / "dask"
    if not folder.is_dir():
        pip = [sys.executable, "-m", "pip", "install", "--timeout", "5", "--retries", "0"]
        run(*pip, "--target", folder, "distributed")
    return (sys.executable, [folder]) if imports_distributed(sys.executable, folder) else None


def unittests(name: str, python: str, *paths: str | Path, options: Sequence[str] = ()) -> None:
    """Counts the tests of a module of bindings/python/tests; what they print goes on."""
    done = run_tests(python, *options, "-m", "unittest", name, env=environment(PACKAGE, PACKAGE / "tests", *paths), seconds=480)
    print("".join(line + "\n" for line in done.said.splitlines() if line.startswith("cluster: ")), end="")
    counts.add(name, done.passed, done.failed, done.said)
    if done.skipped:
        counts.skip(name, "the machine lacks what they need", done.skipped)


# The example of docs/SCALE.md.

PAGE = ROOT / "docs/SCALE.md"
LEVELS, MESSAGES = ("info", "warning", "error"), ("timeout of db", "started")


def block_with(words: str) -> str:
    """The block of code of the page that has these words."""
    blocks = re.findall(r"(?:^(?:    .*)?\n)+", PAGE.read_text(), re.MULTILINE)
    (block,) = (block for block in blocks if words in block)
    return re.sub("^    ", "", block, flags=re.MULTILINE).strip() + "\n"


def example(folder: Path) -> str:
    """Writes the page's program beside a folder of log files, and returns what it should print."""
    (folder / "logs.py").write_text(block_with("from dilforec.cluster import Cluster"))
    (folder / "logs").mkdir()
    lines = []
    for day in range(5):
        of_day = [(day * 1000 + number, LEVELS[number % 3], MESSAGES[number % 2]) for number in range(60)]
        lines += [(f"logs/{day}.jsonl", *line) for line in of_day]
        (folder / f"logs/{day}.jsonl").write_text("".join(
            f'{{"time":{when},"level":"{level}","message":"{message}-{when}"}}\n' for when, level, message in of_day))
    found = [line for line in lines if line[3] == "timeout of db"]
    levels = {level: sum(line[2] == level for line in found) for level in ("error", "info", "warning")}
    newest = sorted(found, key=lambda line: -line[1])[:10]
    told = [f"{path} {when} {message}-{when}\n" for path, when, _, message in newest]
    return "".join([f"{len(found)} {levels}\n", *told])


def runs_as_told(name: str, told: str, python: str | Path, folder: Path, env: Mapping[str, str], *words: str) -> None:
    done = run(python, "logs.py", *words, cwd=folder, env=env)
    # Dask may have words of its own around it.
    good = done.status == 0 and told in done.said
    counts.check(name, good, done.said + "\nand not\n" + told)


@contextlib.contextmanager
def commands(python: str, folder: Path, env: Mapping[str, str], *options: str) -> Iterator[str]:
    """A scheduler and four workers, as the page starts them. Its address."""
    file = folder / "scheduler.json"
    file.unlink(missing_ok=True)
    both: list[str | Path] = ["--scheduler-file", file, "--no-dashboard", *options]
    started = [["scheduler", "--port", "0", "--host", "127.0.0.1"], ["worker", "--nworkers", "4", "--nthreads", "1"]]
    running = [subprocess.Popen([python, "-m", f"distributed.cli.dask_{kind}", *options, *both], cwd=folder, env=env,
                                stdout=subprocess.DEVNULL, stderr=subprocess.DEVNULL, start_new_session=True)
               for kind, *options in started]
    try:
        deadline = time.monotonic() + 30
        while not file.exists() and time.monotonic() < deadline:
            time.sleep(0.1)
        address = re.search(r'"address": "([^"]*)"', file.read_text())
        assert address
        yield address[1]
    finally:
        for process in reversed(running):
            process.send_signal(signal.SIGINT)
        for process in running:
            with contextlib.suppress(subprocess.TimeoutExpired):
                process.wait(10)
            with contextlib.suppress(ProcessLookupError):
                os.killpg(process.pid, signal.SIGKILL)


def the_example(python: str, paths: Iterable[Path]) -> None:
    env = environment(PACKAGE, *paths)
    with tempfile.TemporaryDirectory() as name:
        folder = pathlib.Path(name)
        told = example(folder)
        runs_as_told("the example with LocalCluster", told, python, folder, env)
        with commands(python, folder, env) as address:
            runs_as_told("the example with dask-scheduler and dask-worker", told, python, folder, env, address)


# Searches until each connection to a worker is there, and prints the TLS of each.
CONNECTIONS = """
import pathlib, sys, time
from distributed import Client
import dilforec
from dilforec.cluster import Cluster

with Client(sys.argv[1], security=security, set_as_default=False) as client, Cluster(
    client, [dilforec.keyword("level")], sorted(pathlib.Path("logs").glob("*.jsonl")), progress=False,
) as logs:
    connections = logs._connections._connections
    while not connections or not all(each.is_open for each in connections.values()):
        logs.search("*")
        time.sleep(0.05)
    logs.search("*")
    print([each._transport.get_extra_info("cipher") for each in connections.values()])
"""


def with_tls(python: str, paths: Iterable[Path]) -> None:
    """The example over TLS, with the page's certificates and options; a client without a certificate is kept out."""
    env = environment(PACKAGE, *paths)
    with tempfile.TemporaryDirectory() as name:
        folder = pathlib.Path(name)
        expected = example(folder)
        for line in block_with("openssl req -x509").splitlines():
            done = run(*shlex.split(line), cwd=folder)
            if done.status != 0:
                counts.check("the certificates", False, done.said)
                return
        scheduler, worker = (shlex.split(line) for line in block_with("--protocol tls").splitlines())
        options = scheduler[scheduler.index("--tls-ca-file"):]
        same = options == worker[worker.index("--tls-ca-file"):]
        counts.check("the options of a scheduler and a worker", same)
        security = block_with("import Security").replace("from distributed import Client\n", "").partition("client = ")[0]
        program = (folder / "logs.py").read_text().replace("*sys.argv[1:] or [LocalCluster(threads_per_worker=1)]",
                                                           "sys.argv[1], security=security")
        (folder / "logs.py").write_text(security + program)
        (folder / "connections.py").write_text(security + CONNECTIONS)
        with commands(python, folder, env, "--protocol", "tls", *options) as address:
            good = address.startswith("tls://")
            counts.check("an address of TLS", good, address)
            runs_as_told("the example over TLS", expected, python, folder, env, address)
            done = run(python, "-X", "dev", "connections.py", address, cwd=folder, env=env, seconds=60)
            good = done.status == 0 and "TLSv1" in done.said
            counts.check("connections over TLS", good, done.said)
            for stranger in address, address.replace("tls:", "tcp:"):
                program = f"from distributed import Client; Client({stranger!r}, timeout=3)"
                refused = run(python, "-c", program, cwd=folder, env=env, seconds=60).status not in (0, None)
                counts.check(f"a client without a certificate, by {stranger[:3]}", refused)


def from_the_wheel(python: str, paths: Iterable[Path]) -> None:
    """The example with the package as a wheel installs it, with its extra, in a plain environment."""
    with tempfile.TemporaryDirectory() as name:
        folder = pathlib.Path(name)
        told = example(folder)
        pip = [sys.executable, "-m", "pip", "--disable-pip-version-check"]
        done = run(*pip, "wheel", "--quiet", "--no-index", "--no-deps", "--no-build-isolation", "-w", folder, PACKAGE)
        wheels = list(folder.glob("dilforec-*.whl"))
        if done.status != 0 or len(wheels) != 1:
            counts.check("the wheel", False, done.said)
            return
        run(python, "-m", "venv", "--without-pip", "--system-site-packages", folder / "plain")
        plain = folder / "plain/bin/python"
        env = environment(*paths)
        done = run(*pip, "--python", plain, "install", "--quiet", "--no-index", f"{wheels[0]}[cluster]", env=env)
        if done.status != 0:
            counts.check("the wheel, installed", False, done.said)
            return
        runs_as_told("the example from the wheel", told, plain, folder, env)


def main() -> int:
    began = time.monotonic()
    unittests("test_joins", sys.executable)
    found = with_distributed()
    if not SHARED.is_file():
        counts.check("the shared object", False, f"{SHARED} isn't there: bindings/python/link.py makes it")
    elif found is None:
        for name in ("test_connections", "test_cluster", "the example of docs/SCALE.md", "the example over TLS", "the example from the wheel"):
            counts.skip(name, "no Python here has distributed")
    else:
        python, paths = found
        unittests("test_connections", python, *paths, options=["-X", "dev"])
        unittests("test_cluster", python, *paths)
        the_example(python, paths)
        if shutil.which("openssl"):
            with_tls(python, paths)
        else:
            counts.skip("the example over TLS", "there is no openssl")
        from_the_wheel(python, paths)
    counts.say(f"took {time.monotonic() - began:.0f} s")
    return counts.end()


if __name__ == "__main__":
    sys.exit(main())
