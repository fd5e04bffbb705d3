"""A transaction: what a caller asks for, and then what came of it."""
from __future__ import annotations

from collections.abc import Mapping, Sequence
from typing import Any, NamedTuple, Optional, Union

from dilforec import sentences
from dilforec.refusals import refused
from dilforec.service import _lines as lines
from dilforec.service._lines import Key, Operation
from dilforec.service._worker import Job
from dilforec.values import Field


class Done(NamedTuple):
    """What came of a transaction: the numbers of the documents that it added, in its order, and its commit's."""

    ids: "tuple[int, ...]"
    commit: int


class Transaction(Job):
    """Operations that are done together, in their order, or not at all. Store.transaction opens one.

    A document is known by its number or, if the store has a key, by its key. What an operation replaces or deletes so
    has to be there, after the operations before it; those that delete by another value, or all, don't count for that.
    It may name the version that the document has to have, which `version_of` tells, or "*" for any.

    `add`, `replace` and `put_by_key` raise ValueError if the document has an `id` of its own, or not the key that it
    has to have; all raise the index's refusal of what has no JSON. Other refusals come at the end.
    """

    # Whether it has adds alone, and they are of a store without a key, so that nothing has to be looked up.
    is_plain = True
    # The lines that it becomes, and for each of them its operation's number, from 1.
    block = b""
    owners: "Sequence[int]" = ()
    _ids: "Sequence[int]" = ()
    _commit = 0

    def __init__(self, key: Optional[Field] = None) -> None:
        super().__init__()
        self.operations: "list[Operation]" = []
        self._key = key

    def add(self, document: "Mapping[str, Any]") -> None:
        """Adds a document, which gets a number; if its key is there, it replaces that document, and has its number."""
        text = lines.document_text(document)
        if self._key is None:
            self.operations.append(Operation(text, True))
        else:
            self._append(Operation(text, True, None, self._key_in(document)))

    def replace(self, id: int, document: "Mapping[str, Any]", *, version: Optional[str] = None) -> None:
        """Puts a document in the place of the one of a number."""
        text = lines.document_text(document, id)
        self._append(Operation(text, True, id, self._key_in(document), True, version))

    def put_by_key(self, key: Key, document: "Mapping[str, Any]", *, version: Optional[str] = None) -> None:
        """Adds a document, or puts it in the place of the one of its key; with a version, that has to be there."""
        field, text = self._checked(key), lines.document_text(document)
        if self._key_in(document) != key:
            raise ValueError(f"the document has {document[field.name]!r} in {field.name!r}, and not {key!r}")
        self._append(Operation(text, True, None, key, version is not None, version))

    def delete(self, field: str, value: "Union[str, int]") -> None:
        """Deletes the documents that have a value: a whole keyword, a number, `id` too, or a word of a text."""
        is_number = isinstance(value, int) and not isinstance(value, bool)
        id = value if field == "id" and is_number and isinstance(value, int) else None
        by_key = self._key is not None and field == self._key.name and sentences.is_of(self._key.kind, value)
        self._append(Operation(lines.delete_line(field, value), False, id, value if by_key else None))

    def delete_document(self, id: int, *, version: Optional[str] = None) -> None:
        """Deletes the document of a number."""
        self._append(Operation(lines.delete_line("id", id), False, id, None, True, version))

    def delete_by_key(self, key: Key, *, version: Optional[str] = None) -> None:
        """Deletes the document of a key."""
        line = lines.delete_line(self._checked(key).name, key)
        self._append(Operation(line, False, None, key, True, version))

    def delete_all(self) -> None:
        """Deletes all documents."""
        self._append(Operation(b'{"delete_all":true}', False))

    def command(self, command: object) -> None:
        """Does what a script's line says, read from its JSON: {"add": ..}, {"delete": ..} or {"delete_all": true}."""
        if isinstance(command, dict) and len(command) == 1:
            ((name, given),) = command.items()
            if name == "add":
                return self.add(given)
            if name == "delete" and isinstance(given, dict) and len(given) == 1:
                return self.delete(*next(iter(given.items())))
            if name == "delete_all" and given is True:
                return self.delete_all()
        raise ValueError("a transaction takes add, delete and delete_all alone, one in a line")

    def _append(self, operation: Operation) -> None:
        self.is_plain = False
        self.operations.append(operation)

    def _checked(self, key: Key) -> Field:
        """The field of keys, if a value can be one."""
        if self._key is None:
            raise ValueError("the store has no key")
        if key is None or not sentences.is_of(self._key.kind, key):
            raise refused("WrongKind", None, sentences.fault_of("WrongKind", self._key.kind, self._key.name, key))
        return self._key

    def _key_in(self, document: "Mapping[str, Any]") -> Optional[Key]:
        """The key of a document; None if the store has none."""
        if self._key is None:
            return None
        key: Any = document.get(self._key.name)
        if key is None:
            raise ValueError(f"the document has no {self._key.name!r}, which is the store's key")
        self._checked(key)
        return key if isinstance(key, (str, int)) else None

    def drafted(self, block: bytes, owners: "Sequence[int]", ids: "Sequence[int]") -> None:
        """Notes the lines that it becomes, each one's operation, and the numbers of its documents."""
        self.block, self.owners, self._ids = block, owners, ids

    def committed(self, commit: int) -> None:
        """Notes that it is committed."""
        self._commit = commit

    def __len__(self) -> int:
        """How many operations there are so far."""
        return len(self.operations)

    def __bool__(self) -> bool:
        # A transaction without operations is one all the same.
        return True

    @property
    def done(self) -> Done:
        """What came of it, once it is committed. Until then ValueError is raised, or what was in its way."""
        if self.error:
            raise self.error
        if not self._commit:
            raise ValueError("the transaction isn't committed")
        return Done(tuple(self._ids), self._commit)

    @property
    def ids(self) -> "tuple[int, ...]":
        """The numbers of the documents that it added, in its order, once it is committed."""
        return self.done.ids

    @property
    def commit(self) -> int:
        """The number of its commit, once it is committed."""
        return self.done.commit
