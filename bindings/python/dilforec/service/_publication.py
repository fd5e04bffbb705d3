"""The commit that searches see."""
from __future__ import annotations

import logging
from typing import Optional

from dilforec.index import Index, Searcher
from dilforec.library import Closed
from dilforec.service._errors import Stopped
from dilforec.service._snapshot import Snapshot
from dilforec.values import Field

log = logging.getLogger("dilforec.service")


class Publication:
    """A searcher of the last commit, and its number. One thread replaces them, and any thread looks, without a lock."""

    def __init__(self, searcher: Searcher, commit: int) -> None:
        self._latest = searcher, commit
        # Why nothing can be searched any more.
        self._closed: Optional[str] = None

    @property
    def commit(self) -> int:
        """The commit's number."""
        return self._latest[1]

    def show(self, index: Index, commit: int) -> None:
        """Lets searches see an index's last commit. Without memory they see the one before, until the next."""
        try:
            self.replace(index.searcher(), commit)
        except MemoryError:
            log.error("there was no memory for searches to see what the index has now")

    def replace(self, searcher: Searcher, commit: int) -> None:
        """Lets searches see a commit."""
        (old, _), self._latest = self._latest, (searcher, commit)
        old.close()

    def snapshot(self, key: Optional[Field]) -> Snapshot:
        """The commit, to search. Stopped is raised once it is closed."""
        while True:
            if self._closed is not None:
                raise Stopped(self._closed)
            searcher, commit = self._latest
            try:
                return Snapshot(searcher.searcher(), commit, key)
            except Closed:
                # It was replaced meanwhile, or closed.
                continue

    def leave(self, why: str) -> None:
        """Lets nobody take a snapshot any more."""
        self._closed = why

    def close(self, why: str) -> None:
        """Does that, and gives the searcher back."""
        self.leave(why)
        self._latest[0].close()
