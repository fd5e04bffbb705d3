"""What a store raises, beside the refusals of the index."""
from __future__ import annotations

from typing import Optional, Union

from dilforec.refusals import Refused


class TransactionRefused(Exception):
    """An operation of a transaction was refused, so none of them was done.

    `number` is the operation's place in the transaction, from 1, and `refusal` the index's refusal of it.
    """

    def __init__(self, number: int, refusal: Refused) -> None:
        super().__init__(number, refusal)
        self.number = number
        self.refusal = refusal

    def __str__(self) -> str:
        return f"operation {self.number}: {self.refusal}"


class NoSuchDocument(KeyError):
    """No document has the number, or the key. Nothing was done."""

    def __init__(self, id: "Union[int, str]") -> None:
        super().__init__(id)
        self.id = id

    def __str__(self) -> str:
        return f"there is no document {self.id}"


class VersionChanged(Exception):
    """The document of a number or a key has another version than the one that was asked for. Nothing was done."""

    def __init__(self, id: "Union[int, str]") -> None:
        super().__init__(id)
        self.id = id

    def __str__(self) -> str:
        return f"document {self.id} has another version"


class KeyTaken(Exception):
    """A document was to be replaced by one with the key of another document, whose number is `id`. Nothing was done."""

    def __init__(self, key: "Union[int, str]", id: int) -> None:
        super().__init__(key, id)
        self.key = key
        self.id = id

    def __str__(self) -> str:
        return f"document {self.id} has the key {self.key!r}"


class BadSchema(ValueError):
    """The schema can't be a store's: it has a field `id`, or no room for one, or isn't the journal's, or isn't one.

    Or it has no keyword or number field of the key's name.
    """


class BadJournal(ValueError):
    """The file isn't a journal, or one of its lines is refused. The file is as it was.

    `line` is the number of the line, from 1, and `at` the byte that it begins at, from 0.
    """

    def __init__(self, message: str, line: Optional[int] = None, at: Optional[int] = None) -> None:
        super().__init__(message, line, at)
        self.message = message
        self.line = line
        self.at = at

    def __str__(self) -> str:
        return self.message if self.line is None else f"line {self.line}, byte {self.at}: {self.message}"


class Locked(OSError):
    """Another process has the journal open."""


class Unavailable(Exception):
    """The store can't do this now; the message says why. Nothing was done, unless it is OutcomeUnknown."""


class NotWritten(Unavailable):
    """The journal or memory refused a transaction. Nothing of it was done; it may be tried again."""


class OutcomeUnknown(Unavailable):
    """The journal refused a transaction, and then to be cut back: at the next start it is there whole, or not at all.

    All writes are refused until then.
    """


class Stopped(Unavailable):
    """The store was closed, by a fork too, or takes no writes until it is opened again. Nothing was done."""


class Busy(Unavailable):
    """The journal is being compacted already."""
