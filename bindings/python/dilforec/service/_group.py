"""Transactions that share a sync and a commit, and the lines that they become."""
from __future__ import annotations

from collections.abc import Sequence
from typing import Optional

from dilforec.index import Index
from dilforec.service import _lines as lines
from dilforec.service._errors import KeyTaken, NoSuchDocument, VersionChanged
from dilforec.service._lines import Key, Operation
from dilforec.service._lookups import Lookups
from dilforec.service._transaction import Transaction
from dilforec.service._versions import ANY
from dilforec.values import Field

# A group has fewer operations, unless it is one transaction alone.
_MOST_OPERATIONS = 100_000


class _Subjects:
    """Documents by their numbers and their keys."""

    def __init__(self) -> None:
        self.ids: "set[int]" = set()
        self.keys: "set[Key]" = set()

    def meets(self, other: _Subjects) -> bool:
        return not (self.ids.isdisjoint(other.ids) and self.keys.isdisjoint(other.keys))

    def update(self, other: _Subjects) -> None:
        self.ids |= other.ids
        self.keys |= other.keys


class Group:
    """Transactions that are done together, each of which finds the last commit.

    So what becomes of one doesn't depend on the others. A transaction that asks for what another one changes begins the
    next group.
    """

    def __init__(self, index: Index, key: Optional[Field], last_id: int) -> None:
        self.members: "list[Transaction]" = []
        self.last_id = self._first_id = self._last_before = last_id
        self._lookups, self._key = Lookups(index, key), key
        self._changed, self._by_value, self._operations = _Subjects(), False, 0

    def take(self, transaction: Transaction) -> bool:
        """Takes the next transaction, unless it has to wait for the commit of those before it."""
        self._last_before = self.last_id
        if self.members and self._operations + len(transaction) > _MOST_OPERATIONS:
            return False
        if transaction.is_plain:
            self._give_plain(transaction)
            return True
        draft = self._drafted(transaction)
        if self.members and self._hinders(draft):
            return False
        if draft.error is not None:
            transaction.error = draft.error
        else:
            self._changed.update(draft.subjects)
            self._by_value = self._by_value or draft.by_value
            self._give(draft, transaction)
        return True

    def leave_out(self) -> None:
        """Leaves out the member that was taken last. The next one gets its numbers."""
        self.members.pop()
        self.last_id = self._last_before

    @property
    def block(self) -> bytes:
        """The lines of all members."""
        return b"".join([each.block for each in self.members])

    def _drafted(self, transaction: Transaction) -> _Draft:
        draft = _Draft(self._lookups, self._key, self.last_id)
        draft.do_all(transaction)
        return draft

    def _hinders(self, draft: _Draft) -> bool:
        if not draft.asks:
            return False
        is_new = any(id > self._first_id for id in draft.subjects.ids)
        return self._by_value or is_new or self._changed.meets(draft.subjects)

    def _give_plain(self, transaction: Transaction) -> None:
        """Numbers the documents of a transaction that has adds alone."""
        first, self.last_id = self.last_id + 1, self.last_id + len(transaction.operations)
        ids = range(first, self.last_id + 1)
        block = b"".join([lines.add_line(each.text, id) for each, id in zip(transaction.operations, ids)])
        self._add(transaction, block, range(1, len(ids) + 1), ids)

    def _give(self, draft: _Draft, transaction: Transaction) -> None:
        self.last_id = draft.last_id
        self._add(transaction, b"".join(draft.lines), draft.owners, draft.ids)

    def _add(self, transaction: Transaction, block: bytes, owners: "Sequence[int]", ids: "Sequence[int]") -> None:
        transaction.drafted(block, owners, ids)
        self._operations += len(transaction)
        self.members.append(transaction)


class _Draft:
    """The lines of a transaction, as far as its operations were gone through."""

    def __init__(self, lookups: Lookups, key: Optional[Field], last_id: int) -> None:
        self.lines: "list[bytes]" = []
        self.owners: "list[int]" = []
        self.ids: "list[int]" = []
        self.last_id = last_id
        self.error: Optional[Exception] = None
        # What it names or has found; whether it asked for something; whether it deletes what has a value.
        self.subjects, self.asks, self.by_value = _Subjects(), False, False
        self._lookups, self._key = lookups, key
        # What its own operations did: whether a number is there, which key it has, and which number has a key.
        self._there: "dict[int, bool]" = {}
        self._keys: "dict[int, Key]" = {}
        self._by_key: "dict[Key, Optional[int]]" = {}

    def do_all(self, transaction: Transaction) -> None:
        """Goes through the operations, until one can't be done."""
        if self._key is not None:
            self._lookups.prepare(each.key for each in transaction.operations if each.key is not None)
        try:
            for number, operation in enumerate(transaction.operations, 1):
                self._do(operation)
                self.owners.extend([number] * (len(self.lines) - len(self.owners)))
        except (NoSuchDocument, VersionChanged, KeyTaken) as error:
            self.error = error

    def _do(self, operation: Operation) -> None:
        named = self._named(operation)
        if operation.needs:
            self._check(operation, named)
        if operation.is_add:
            self._add(operation, named)
            return
        self.lines.append(operation.text + b"\n")
        if named is not None:
            self._there[named] = False
        if operation.key is not None:
            self._by_key[operation.key] = None
        self.by_value = self.by_value or (operation.id is None and operation.key is None)

    def _named(self, operation: Operation) -> Optional[int]:
        """The number of the document that an operation names, if it is there, or needn't be."""
        if operation.id is not None:
            self.subjects.ids.add(operation.id)
            return operation.id if not operation.needs or self._is_there(operation.id) else None
        return None if operation.key is None else self._id_of(operation.key)

    def _is_there(self, id: int) -> bool:
        self.asks = True
        return self._there[id] if id in self._there else self._lookups.is_there(id)

    def _id_of(self, key: Key) -> Optional[int]:
        """The number of the document that has a key now."""
        self.asks = True
        self.subjects.keys.add(key)
        if key in self._by_key:
            found = [id for id in [self._by_key[key]] if id is not None]
        else:
            found = self._lookups.ids_of(key)
        self.subjects.ids.update(found)
        return next((id for id in found if self._there.get(id, True)), None)

    def _check(self, operation: Operation, named: Optional[int]) -> None:
        if named is None:
            raise NoSuchDocument(operation.named)
        if operation.version is not None and operation.version != ANY:
            # Its own operations have changed it, or it is as the last commit has it.
            if named in self._there or self._lookups.version(named) != operation.version:
                raise VersionChanged(operation.named)

    def _add(self, operation: Operation, named: Optional[int]) -> None:
        if operation.id is not None and operation.key is not None:
            self._leave_key(operation.id, operation.key)
        if operation.id is not None:
            self.lines.append(lines.delete_line("id", operation.id) + b"\n")
        elif named is not None and operation.key is not None and self._key is not None:
            self.lines.append(lines.delete_line(self._key.name, operation.key) + b"\n")
        id = self.last_id + 1 if named is None else named
        self.last_id = max(self.last_id, id)
        self.lines.append(lines.add_line(operation.text, id))
        self.ids.append(id)
        self._there[id] = True
        if operation.key is not None:
            self._by_key[operation.key], self._keys[id] = id, operation.key

    def _leave_key(self, id: int, key: Key) -> None:
        """Sees that the document of a number may have a key, and forgets the key that it has."""
        other = self._id_of(key)
        if other is not None and other != id:
            raise KeyTaken(key, other)
        old = self._keys[id] if id in self._keys else self._lookups.key_of(id)
        if old is not None:
            self._by_key[old] = None
