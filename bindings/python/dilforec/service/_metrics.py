"""What a service counts, as a text in Prometheus's format."""
from __future__ import annotations

import bisect
import itertools
import os
import resource
import sys
import threading
import time
from collections.abc import Iterator
from contextlib import contextmanager

# The seconds up to which a call is counted in each part of a histogram.
_BOUNDS = (0.0005, 0.001, 0.0025, 0.005, 0.01, 0.025, 0.05, 0.1, 0.25, 0.5, 1.0, 2.5, 5.0, 10.0)


class _Histogram:
    """How many calls took how long."""

    def __init__(self) -> None:
        self.counts = [0] * (len(_BOUNDS) + 1)
        self.seconds = 0.0

    def add(self, seconds: float) -> None:
        self.counts[bisect.bisect_left(_BOUNDS, seconds)] += 1
        self.seconds += seconds

    def lines(self, name: str) -> "list[str]":
        """Prometheus's lines: how many calls took at most each bound, their seconds, and how many they are."""
        bounds = [*(f"{bound:g}" for bound in _BOUNDS), "+Inf"]
        up_to = list(itertools.accumulate(self.counts))
        told = [f'{name}_bucket{{le="{bound}"}} {count}' for bound, count in zip(bounds, up_to)]
        return [*told, f"{name}_sum {_number(self.seconds)}", f"{name}_count {up_to[-1]}"]


class Metrics:
    """Counts of one process."""

    def __init__(self) -> None:
        self._lock = threading.Lock()
        self._counts: "dict[str, float]" = {}
        self._histograms = {name: _Histogram() for name in _TIMES}
        self._began = time.time()

    def count(self, name: str, by: float = 1) -> None:
        """Adds to a count."""
        with self._lock:
            self._counts[name] = self._counts.get(name, 0) + by

    @contextmanager
    def timed(self, name: str) -> "Iterator[None]":
        """Counts one of a kind of calls, and its seconds."""
        began = time.perf_counter()
        try:
            yield
        finally:
            self.took(name, began)

    def took(self, name: str, began: float) -> None:
        """Counts one of a kind of calls, and its seconds since a time of `perf_counter`."""
        seconds = time.perf_counter() - began
        with self._lock:
            self._histograms[name].add(seconds)

    def text(self, gauges: "dict[str, tuple[str, float]]") -> str:
        """Prometheus's text: the counts, and what is measured now, each with a sentence of help."""
        with self._lock:
            counts = {name: self._counts.get(name, 0) for name in _COUNTS}
            for name, histogram in self._histograms.items():
                counts[f"{name}_total"], counts[f"{name}_seconds_total"] = sum(histogram.counts), histogram.seconds
            times = {name: self._histograms[name].lines(f"dilforec_{name}_seconds") for name in _TIMES}
        told = {name: ("counter", text, counts[name]) for name, text in _COUNTS.items()}
        told.update({name: ("gauge", text, value) for name, (text, value) in gauges.items()})
        told["start_time_seconds"] = "gauge", "When the service started, in seconds since 1970.", self._began
        lines = []
        for name, (kind, text, value) in told.items():
            full = f"dilforec_{name}"
            lines += [f"# HELP {full} {text}", f"# TYPE {full} {kind}", f"{full} {_number(value)}"]
        for name, text in _TIMES.items():
            full = f"dilforec_{name}_seconds"
            lines += [f"# HELP {full} {text}", f"# TYPE {full} histogram", *times[name]]
        return "\n".join(lines) + "\n"


_COUNTS = {
    "searches_total": "Searches that were answered or refused.",
    "searches_seconds_total": "Seconds that searches took.",
    "transactions_total": "Transactions that were committed or refused.",
    "transactions_seconds_total": "Seconds that transactions took, with their wait for others.",
    "refusals_total": "Requests that were answered by a status from 400 to 499.",
    "failures_total": "Requests that were answered by a status from 500 on.",
}

_TIMES = {
    "searches": "How many searches took how many seconds.",
    "transactions": "How many transactions took how many seconds, with their wait for others.",
}


def _number(value: float) -> str:
    return str(int(value)) if value == int(value) else f"{value:.6f}"


def resident_bytes() -> int:
    """The memory that the process has now; where the system doesn't say so, the most that it ever had."""
    try:
        with open("/proc/self/statm") as file:
            return int(file.read().split()[1]) * os.sysconf("SC_PAGE_SIZE")
    except (OSError, ValueError, IndexError):
        most = resource.getrusage(resource.RUSAGE_SELF).ru_maxrss
        return most if sys.platform == "darwin" else most * 1024
