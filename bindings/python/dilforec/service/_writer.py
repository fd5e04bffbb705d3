"""What changes an index and its journal: transactions, in groups that share a sync. One thread calls it."""
from __future__ import annotations

import logging
from collections.abc import Iterator
from typing import Optional

from dilforec.index import Index
from dilforec.refusals import Refused
from dilforec.service._errors import NotWritten, OutcomeUnknown, Stopped, TransactionRefused
from dilforec.service._group import Group
from dilforec.service._index import execute_together
from dilforec.service._journal import Journal
from dilforec.service._lines import COMMIT
from dilforec.service._replay import Numbers
from dilforec.service._transaction import Transaction
from dilforec.values import Field

log = logging.getLogger("dilforec.service")


class Writer:
    """An index, its journal and their numbers. Each transaction is in both, or in neither.

    Its lines are executed, written to the journal and synced, and only then committed, so that what a search has seen
    is on disk.
    """

    def __init__(self, index: Index, journal: Journal, numbers: Numbers, key: Optional[Field]) -> None:
        self.index = index
        self.journal = journal
        self.numbers = numbers
        self.stopped: Optional[str] = None
        self._key = key

    def commit(self, waiting: Iterator[Transaction]) -> int:
        """Does a beginning of what waits with one sync and one commit, and returns how many transactions that were."""
        group = Group(self.index, self._key, self.numbers.last_id)
        taken = 0
        for each in waiting:
            if self.stopped:
                each.error = Stopped(self.stopped)
            elif not self._take(group, each):
                break
            taken += 1
        if group.members and not self.stopped:
            try:
                self._write(group)
            except BaseException as error:
                self._fail(group, error)
        return taken

    def _take(self, group: Group, transaction: Transaction) -> bool:
        """Takes a transaction into a group and executes it, unless it has to wait for the next group.

        If it can't be done, it has an error, and the others go on: no line is executed twice.
        """
        try:
            if not group.take(transaction):
                return False
        except BaseException as error:
            transaction.error = NotWritten(f"nothing was done: {error!r}")
            log.exception("a transaction can't be made")
            return True
        if transaction.error is None:
            try:
                self._execute(group, transaction)
            except BaseException as error:
                self._fail(group, error)
        return True

    def _execute(self, group: Group, transaction: Transaction) -> None:
        """Executes a member of a group, whole or not at all; then it has an error, and leaves."""
        try:
            refusal = execute_together(self.index, transaction.block)
            if refusal is None:
                return
            number = transaction.owners[refusal.place]
            transaction.error = TransactionRefused(number, refusal.why(self.index))
        except MemoryError:
            transaction.error = NotWritten("nothing was done: there was no memory")
        group.leave_out()

    def _fail(self, group: Group, error: BaseException) -> None:
        """Stops after an error that wasn't thought of: what is in the index now, and in the file, isn't known."""
        self.stop(f"outcome unknown: {error!r}")
        for each in group.members:
            each.error = each.error or OutcomeUnknown(f"outcome unknown: {error!r}")
        log.exception("a transaction failed")

    def stop(self, why: str) -> None:
        """Refuses all later transactions."""
        log.critical("no more writes until a restart: %s", why)
        self.stopped = f"nothing was done: writes are refused until a restart, since an earlier one failed ({why})"

    def _write(self, group: Group) -> None:
        """Writes what was executed and commits it, or takes it back and notes why."""
        before = self.journal.end
        try:
            self.journal.append(group.block + COMMIT)
            self._commit_index(before)
        except (NotWritten, OutcomeUnknown) as error:
            for each in group.members:
                # Each is raised in a thread of its own.
                each.error = type(error)(*error.args)
                each.error.__cause__ = error.__cause__
            rollback(self.index)
            log.error("%s", error)
            if isinstance(error, OutcomeUnknown):
                self.stop(str(error))
            return
        self.journal.keep()
        self.numbers = Numbers(group.last_id, self.numbers.commit + 1)
        for each in group.members:
            each.committed(self.numbers.commit)

    def _commit_index(self, before: int) -> None:
        try:
            self.index.commit()
        except (MemoryError, Refused):
            self._commit_again(before)

    def _commit_again(self, before: int) -> None:
        try:
            self.index.commit()
        except (MemoryError, Refused) as error:
            self.journal.cut_back(before, error)


def rollback(index: Index) -> None:
    """Takes back what isn't committed."""
    try:
        index.rollback()
    except MemoryError:
        index.rollback()
