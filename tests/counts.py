"""Counts what tests come to, and prints the last lines that .ci/run adds up: 'N skipped', if any, and 'N passed, M failed'."""
from __future__ import annotations

from collections.abc import Callable


class Counts:
    """The counts of one program of tests, whose name begins each line that it prints.

    A quiet one prints no check that passed.
    """

    def __init__(self, name: str, *, quiet: bool = False) -> None:
        self.name = name
        self.quiet = quiet
        self.passed = self.failed = self.skipped = 0

    def say(self, words: str) -> None:
        """Prints a line, or several of which the first begins with the name."""
        print(f"{self.name}: {words}", flush=True)

    def add(self, name: str, good: int, bad: int, words: object = "") -> bool:
        """Counts several checks, and returns whether all passed. The words are printed if one failed."""
        self.passed, self.failed = self.passed + good, self.failed + bad
        if bad:
            self.say(f"{name}: {f'{bad} ' if good + bad > 1 else ''}FAILED\n{words}".rstrip())
        elif not self.quiet:
            self.say(f"{name}: {good if good > 1 else 'ok'}")
        return not bad

    def check(self, name: str, good: object, words: object = "") -> bool:
        """Counts one check, which passed if this is true, and returns whether it did."""
        return self.add(name, int(bool(good)), int(not good), words)

    def skip(self, name: str, why: str, number: int = 1) -> None:
        """Counts what the machine can't try."""
        self.skipped += number
        self.say(f"{name}: skipped, since {why}")

    def attempt(self, part: Callable[..., object], *given: object) -> None:
        """Calls a part of the tests; an exception fails it."""
        try:
            part(*given)
        except Exception as error:
            self.check(part.__name__, False, f"{type(error).__name__}: {error}")

    def end(self) -> int:
        """Prints the last lines, and returns the exit status."""
        if self.skipped:
            print(f"{self.skipped} skipped")
        print(f"{self.passed} passed, {self.failed} failed")
        return 1 if self.failed else 0
