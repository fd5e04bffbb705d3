"""What goes into an index and what comes out: fields, top lists, hits and answers."""
from __future__ import annotations

from collections.abc import Iterator
from dataclasses import dataclass
from typing import Any, Dict, Generic, Literal, NamedTuple, Optional, TypeVar, Union, get_args

Kind = Literal["text", "keyword", "u64", "i64"]
Order = Literal["rising", "falling"]
Value = Union[str, int, "list[str]", None]
GroupValue = Union[str, int]
GroupCounts = Dict[GroupValue, int]
G = TypeVar("G", GroupCounts, Dict[str, GroupCounts])


@dataclass(frozen=True)
class Field:
    """A field of a schema. Words of a query that name no field are looked up in each default field.

    TypeError or ValueError if the name isn't a str, or there is no such kind.
    """

    name: str
    kind: Kind
    default: bool = False

    def __post_init__(self) -> None:
        if not isinstance(self.name, str):
            raise TypeError(f"a field's name is a str, not {type(self.name).__name__}")
        if self.kind not in get_args(Kind):
            raise ValueError(f"a field's kind is 'text', 'keyword', 'u64' or 'i64', not {self.kind!r}")


@dataclass(frozen=True)
class Top:
    """The first `k` hits, 1 to 10,000, by a number field, "rising" or "falling"; equal values by smaller stamp.

    TypeError or ValueError if the name isn't a str, `k` no int, or there is no such order.
    """

    by: str
    k: int
    order: Order = "rising"

    def __post_init__(self) -> None:
        if not isinstance(self.by, str):
            raise TypeError(f"a top list is by the name of a field, not by {type(self.by).__name__}")
        if not isinstance(self.k, int) or isinstance(self.k, bool):
            raise TypeError(f"the length of a top list is an int, not {type(self.k).__name__}")
        if self.order not in get_args(Order):
            raise ValueError(f"the order of a top list is 'rising' or 'falling', not {self.order!r}")


@dataclass(frozen=True)
class Groups:
    """The values of a keyword or number field that most hits have, at most `limit`; of equal counts the lesser value.

    TypeError or ValueError if the name isn't a str, or `limit` no int of at least 0.
    """

    field: str
    limit: int

    def __post_init__(self) -> None:
        if not isinstance(self.field, str):
            raise TypeError(f"groups are by the name of a field, not by {type(self.field).__name__}")
        if not isinstance(self.limit, int) or isinstance(self.limit, bool):
            raise TypeError(f"the number of groups is an int, not {type(self.limit).__name__}")
        if not 0 <= self.limit < 1 << 64:
            raise ValueError("the number of groups is at least 0, and less than 2**64")


class Hit(NamedTuple):
    """A document that was found: the value that it was ordered by, its stamp, and its fields that have a value.

    In the answer of a cluster `source` is the name of the source that the stamp is of, else it is None.
    """

    value: int
    stamp: int
    document: dict[str, Any]
    source: Optional[str] = None


class Stats(NamedTuple):
    """How large an index is: its segments, the documents in them, and how many of these are live.

    The others were deleted or replaced, and go when their segments are merged.
    """

    segments: int
    documents: int
    live: int


@dataclass(frozen=True)
class Answer(Generic[G]):
    """What a search found: how many documents, how many of each group in the order of the values, and the top list.

    `groups` has the number of documents by value, and, if a list of fields was asked for, such a dict for each field;
    with a limit, the most frequent values in the order of their counts.
    Iterating over an answer gives its hits, of which there are none without a top list.
    """

    count: int
    groups: G
    hits: tuple[Hit, ...]

    def __iter__(self) -> Iterator[Hit]:
        return iter(self.hits)


def text(name: str, default: bool = False) -> Field:
    """A field whose words are found."""
    return Field(name, "text", default)


def keyword(name: str, default: bool = False) -> Field:
    """A field whose value is found as a whole, and grouped by."""
    return Field(name, "keyword", default)


def u64(name: str) -> Field:
    """A field of numbers from 0 to 2**64 - 1."""
    return Field(name, "u64")


def i64(name: str) -> Field:
    """A field of numbers from -2**63 to 2**63 - 1."""
    return Field(name, "i64")


def quoted(text: str) -> str:
    """A user's words as a query: whatever characters they have, they are looked up as one phrase."""
    escaped = text.replace("\\", "\\\\").replace('"', '\\"')
    return f'"{escaped}"'


def as_json(value: Union[Field, Top]) -> dict[str, Any]:
    """A field or a top list as the commands of a script have it."""
    return dict(vars(value))
