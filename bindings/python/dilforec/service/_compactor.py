"""Compactions of a store's journal: one at a time, and each is done whole or leaves the journal as it was."""
from __future__ import annotations

import threading
from collections.abc import Callable, Collection
from typing import Optional

from dilforec.index import Index
from dilforec.service._compact import Compaction, Sizes
from dilforec.service._errors import Busy, NotWritten, OutcomeUnknown, Stopped
from dilforec.service._fields import Fields
from dilforec.service._replay import replay_source
from dilforec.service._snapshot import Snapshot
from dilforec.service._worker import Job
from dilforec.service._writer import Writer


class Compacting(Job):
    """A compaction that was asked for."""

    sizes: Sizes


class Compactor:
    """Compactions. A thread of their own does the long part, while transactions go on.

    `begin` and `change_schema` are called while nothing is written, and `alone` has a call made so. `snapshot` gives
    one of the last commit.
    """

    def __init__(
        self, writer: Writer, alone: "Callable[[Callable[[], None]], None]", snapshot: "Callable[[], Snapshot]",
    ) -> None:
        self._writer, self._alone, self._snapshot = writer, alone, snapshot
        self._thread: Optional[threading.Thread] = None
        self._closing = False

    def begin(self, asked: Compacting) -> None:
        """Begins a compaction up to the last commit. Busy is raised if one is under way."""
        compaction, snapshot = self._begun(asked)
        self._thread = threading.Thread(
            target=self._run, args=(asked, compaction, snapshot), name="dilforec-compact", daemon=True,
        )
        try:
            self._thread.start()
        except RuntimeError as error:
            self._thread = None
            snapshot.close()
            compaction.abandon()
            raise NotWritten(f"the journal wasn't compacted, and is as it was: {error}") from error

    def change_schema(self, asked: Compacting, fields: Fields, drop: "frozenset[str]") -> Index:
        """Compacts to a schema, and returns an index of that. If it raises something, all is as it was."""
        index = fields.new_index()
        try:
            compaction, snapshot = self._begun(asked, fields.line, drop)
            try:
                with snapshot:
                    compaction.write(snapshot.ids())
                replay_source(compaction.source(), index, lambda *_: self._check(asked))
                asked.sizes = self._finished(compaction)
            except BaseException:
                compaction.abandon()
                raise
        except BaseException:
            index.close()
            raise
        return index

    def end(self) -> None:
        """Lets what is under way come to its end soon, or be given up."""
        self._closing = True

    def wait(self) -> None:
        """Returns when nothing is under way. What is asked of `alone` meanwhile has to be refused."""
        thread = self._thread
        if thread:
            thread.join()

    def _begun(
        self, asked: Compacting, schema: Optional[bytes] = None, drop: Collection[str] = (),
    ) -> "tuple[Compaction, Snapshot]":
        if self._thread:
            raise Busy("the journal is being compacted already")
        if self._writer.stopped:
            raise Stopped(self._writer.stopped)
        snapshot = self._snapshot()
        try:
            if snapshot.commit != self._writer.numbers.commit:
                raise MemoryError("there was no memory to look at the last commit")
            return Compaction(
                self._writer.journal, self._writer.numbers, lambda: self._check(asked), schema=schema, drop=drop,
            ), snapshot
        except BaseException:
            snapshot.close()
            raise

    def _check(self, asked: Compacting) -> None:
        if self._closing:
            raise Stopped("the store is closed")
        if asked.withdrawn:
            raise Stopped("nobody waits for the compaction any more")

    def _run(self, asked: Compacting, compaction: Compaction, snapshot: Snapshot) -> None:
        try:
            with snapshot:
                compaction.write(snapshot.ids())
            compaction.follow()
            self._alone(lambda: self._finish(asked, compaction))
        except BaseException as error:
            asked.error = error if isinstance(error, Exception) else RuntimeError(repr(error))
            compaction.abandon()
        finally:
            self._thread = None
            asked.finish()

    def _finish(self, asked: Compacting, compaction: Compaction) -> None:
        if self._writer.stopped:
            raise Stopped(self._writer.stopped)
        asked.sizes = self._finished(compaction)

    def _finished(self, compaction: Compaction) -> Sizes:
        try:
            return compaction.finish()
        except OutcomeUnknown as error:
            self._writer.stop(str(error))
            raise
