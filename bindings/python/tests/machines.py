"""A Dask scheduler and workers as processes of their own, which tests kill and start again."""
from __future__ import annotations

import os
import pathlib
import subprocess
import sys
import time
from collections.abc import Callable
from typing import Any

from distributed import Client

WORKERS = 4
# Workers are killed so often that one task may meet it several times; and nobody tries for long to reach a dead one.
ENVIRONMENT = {
    **os.environ,
    "DASK_DISTRIBUTED__SCHEDULER__ALLOWED_FAILURES": "10", "DASK_DISTRIBUTED__COMM__TIMEOUTS__CONNECT": "3s",
}


class Machines:
    """A scheduler, four workers of one thread, and a client."""

    def __init__(self, folder: str | os.PathLike[str]) -> None:
        self.folder, self.file = pathlib.Path(folder), pathlib.Path(folder, "scheduler.json")
        self.scheduler = self._started("scheduler", "--port", "0", "--host", "127.0.0.1")
        self.workers: list[subprocess.Popen[bytes]] = []
        # A client of Dask's, once the scheduler runs.
        self.client: Any = None
        try:
            _wait(self.file.exists)
            self.four()
            self.client = Client(scheduler_file=str(self.file))
            self.four()
        except BaseException:
            self.close()
            raise

    def _started(self, kind: str, *options: str) -> subprocess.Popen[bytes]:
        module = f"distributed.cli.dask_{kind}"
        words: list[str | pathlib.Path] = [
            sys.executable, "-m", module, "--scheduler-file", self.file, "--no-dashboard", *options,
        ]
        with open(self.folder / f"{kind}.log", "ab") as log:
            return subprocess.Popen(words, cwd=self.folder, env=ENVIRONMENT, stdout=log, stderr=log)

    def four(self) -> None:
        """Starts workers in place of those that died, and waits until they are known."""
        deadline = time.monotonic() + 180
        while not self._are_four():
            if time.monotonic() > deadline:
                alive = sum(worker.poll() is None for worker in self.workers)
                raise TimeoutError(f"{alive} workers run, and the scheduler knows {len(self._known())}")
            time.sleep(0.05)

    def _are_four(self) -> bool:
        """Whether there are four workers, which the scheduler knows. Those that lack are started."""
        self.workers = [worker for worker in self.workers if worker.poll() is None]
        while len(self.workers) < WORKERS:
            self.workers.append(self._started("worker", "--no-nanny", "--nthreads", "1", "--memory-limit", "0"))
        return not self.client or len(self._known()) == WORKERS

    def _known(self) -> dict[str, Any]:
        known: dict[str, Any] = self.client.scheduler_info()["workers"]
        return known

    def with_partitions(self, states: str) -> list[str]:
        """The workers that hold ("has_what"), or are making ("processing"), partitions."""
        told = getattr(self.client, states)()
        return [address for address, keys in told.items() if any("dilforec-partition" in str(key) for key in keys)]

    def kill(self, addresses: list[str]) -> None:
        """Kills workers at once."""
        pids = self.client.run(os.getpid, workers=addresses).values()
        killed = [worker for worker in self.workers if worker.pid in pids]
        for worker in killed:
            worker.kill()
        for worker in killed:
            worker.wait()

    def kill_soon(self, count: int, states: str, over: Callable[[], bool]) -> int:
        """Kills workers as soon as so many have partitions. How many it killed: none, if it is over before."""
        while not over():
            addresses = self.with_partitions(states)[:count]
            if len(addresses) == count:
                self.kill(addresses)
                return count
        return 0

    def close(self) -> None:
        if self.client:
            self.client.close()
        for process in (*self.workers, self.scheduler):
            process.kill()
            process.wait()


def _wait(there: Callable[[], bool], seconds: float = 180) -> None:
    deadline = time.monotonic() + seconds
    while not there():
        if time.monotonic() > deadline:
            raise TimeoutError("the scheduler didn't begin")
        time.sleep(0.05)
