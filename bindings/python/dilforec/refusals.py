"""Why a call was refused: an exception for each name that a reply can have in `{"error":NAME,"line":N}`.

docs/SCRIPT.md and docs/QUERIES.md say in which order the causes are looked for. A refused call leaves the index as it
was.
"""
from __future__ import annotations

from collections.abc import Sequence
from typing import Optional


class Refused(Exception):
    """The index refused a command.

    `name` is the refusal's, `detail` a sentence that says what is wrong, with the field or the value if the call knows
    it, and `line` the number of the line that a script would have had it in, or None.
    """

    def __init__(self, name: str, line: Optional[int] = None, detail: str = "") -> None:
        # All of it goes to `args`, so that an error can be pickled and copied.
        super().__init__(name, line, detail)
        self.name = name
        self.line = line
        self.detail = detail or _sentence(type(self))

    def __str__(self) -> str:
        return self.detail if type(self) is not Refused else f"{self.name}: {self.detail}"


def _sentence(kind: type[Refused]) -> str:
    """The first sentence of a refusal's documentation, as the end of 'Syntax: ..'."""
    words = (kind.__doc__ or kind.__name__).partition("\n")[0].partition(". ")[0].rstrip(".")
    return words[:1].lower() + words[1:]


class NoFields(Refused):
    """The schema has no field."""


class TooManyFields(Refused):
    """The schema has more than 32 fields."""


class BadName(Refused):
    """A field's name isn't `[A-Za-z_][A-Za-z0-9_]*` of 1 to 32 bytes, or is AND, OR or NOT."""


class NameTwice(Refused):
    """Two fields have one name."""


class BadDefault(Refused):
    """A number field is marked default."""


class NotAnObject(Refused):
    """The document isn't an object."""


class UnknownField(Refused):
    """The schema has no field of that name."""


class WrongKind(Refused):
    """A value isn't of its field's kind."""


class TooManyTexts(Refused):
    """A list of more than 1,024 texts."""


class TextTooLong(Refused):
    """A text, or a list of texts together, of more than 1,048,576 bytes."""


class KeywordTooLong(Refused):
    """A keyword of more than 256 bytes."""


class LaneFull(Refused):
    """1,000,000 operations are uncommitted."""


class TooLarge(Refused):
    """More than 1,048,576 documents to merge."""


class BadLimit(Refused):
    """The length of a top list isn't within 1 and 10,000."""


class NotANumberField(Refused):
    """Groups by a text field, or a top list by a text or keyword field."""


class TooLong(Refused):
    """A query of more than 4,096 bytes."""


class TooDeep(Refused):
    """Parentheses of a query nest more than 32 deep."""


class Syntax(Refused):
    """The query isn't in the grammar.

    `at` says how far it could be read, in characters: `query[at:]` is what doesn't fit, nothing if more has to follow.
    None if it isn't known.
    """

    def __init__(self, name: str, line: Optional[int] = None, detail: str = "", at: Optional[int] = None) -> None:
        super().__init__(name, line, detail)
        self.args = name, line, detail, at
        self.at = at


class RangeOnText(Refused):
    """A range or a comparison on a text field."""


class BadNumber(Refused):
    """What follows a number field in a query is not a number of its kind."""


class NoDefaultField(Refused):
    """A word without a field, where no field is a default."""


class AllNegative(Refused):
    """A part of a query has nothing but what must not match."""


class BadJson(Refused):
    """The line isn't JSON, or isn't UTF-8, or nests more than 127 deep."""


class BadCommand(Refused):
    """The line is JSON and no command."""


class NoSchema(Refused):
    """Another command before the schema."""


class SchemaTwice(Refused):
    """A second schema."""


class LineTooLong(Refused):
    """A line of more than 4,194,304 bytes. It isn't counted."""


BY_NAME = {kind.__name__: kind for kind in Refused.__subclasses__()}


def refused(name: str, line: Optional[int] = None, detail: str = "") -> Refused:
    """The exception of a refusal."""
    return BY_NAME.get(name, Refused)(name, line, detail)


class SomeRefused(Exception):
    """Some documents of `Index.add_many` were refused, and the others were added.

    `refusals` has the number of each refused document, from 0, and why; `stamps` has the stamp of each document, and
    None for a refused one.
    """

    def __init__(self, refusals: Sequence[tuple[int, Exception]], stamps: Sequence[Optional[int]]) -> None:
        super().__init__(refusals, stamps)
        self.refusals = refusals
        self.stamps = stamps

    def __str__(self) -> str:
        number, why = self.refusals[0]
        return (
            f"{len(self.refusals):,} of {len(self.stamps):,} documents were refused, "
            f"document {number} first: {type(why).__name__}: {why}"
        )


class Unfinished(MemoryError):
    """Memory ran out within `Index.add_many`: the documents that `stamps` speaks of are done, and the others aren't.

    `refusals` and `stamps` are those of `SomeRefused`, of the documents that are done; None is also the stamp of one
    that was added and whose reply found no memory.
    """

    def __init__(self, refusals: Sequence[tuple[int, Exception]], stamps: Sequence[Optional[int]]) -> None:
        super().__init__(refusals, stamps)
        self.refusals = refusals
        self.stamps = stamps

    def __str__(self) -> str:
        return f"memory ran out after {len(self.stamps):,} documents"
