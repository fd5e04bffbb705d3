"""A full-text index inside a Python program, held in memory.

docs/EMBEDDING.md says more of the package, docs/SCRIPT.md of commands, refusals and limits, docs/QUERIES.md of queries.
A wheel puts them into share/doc/dilforec of its environment, which is below sys.prefix.

    import dilforec

    with dilforec.Index(dilforec.text("title", default=True), dilforec.u64("year")) as index:
        with index.transaction():
            index.add({"title": "Programming Pearls", "year": 1986})
        for hit in index.search("pearls", top=dilforec.Top("year", 10)):
            print(hit.value, hit.document["title"])

A refusal of the index is an exception of its name, as dilforec.Syntax: dilforec.refusals has all of them, and
dilforec.Refused is what they have in common. MemoryError says that there was no memory. After an exception the index is
as it was before the call; `Index.add_many` alone may have added some of its documents, and tells which.
"""
import importlib
from typing import TYPE_CHECKING, Any

from dilforec.refusals import (
    AllNegative, BadCommand, BadDefault, BadJson, BadLimit, BadName, BadNumber, KeywordTooLong, LaneFull,
    LineTooLong, NameTwice, NoDefaultField, NoFields, NoSchema, NotANumberField, NotAnObject, RangeOnText, Refused,
    SchemaTwice, SomeRefused, Syntax, TextTooLong, TooDeep, TooLarge, TooLong, TooManyFields, TooManyTexts,
    Unfinished, UnknownField, WrongKind,
)
from dilforec.values import Answer, Field, Groups, Hit, Stats, Top, i64, keyword, quoted, text, u64

__version__ = "0.2.0"

if TYPE_CHECKING:
    from dilforec.index import Index, Merge, Searcher, Transaction
    from dilforec.library import Busy, Closed, UsedUp

__all__ = [
    "AllNegative", "Answer", "BadCommand", "BadDefault", "BadJson", "BadLimit", "BadName", "BadNumber", "Busy",
    "Closed", "Field", "Groups", "Hit", "Index", "KeywordTooLong", "LaneFull", "LineTooLong", "Merge", "NameTwice", "NoDefaultField",
    "NoFields", "NoSchema", "NotANumberField", "NotAnObject", "RangeOnText", "Refused", "SchemaTwice", "Searcher",
    "SomeRefused", "Stats", "Syntax", "TextTooLong", "TooDeep", "TooLarge", "TooLong", "TooManyFields", "TooManyTexts", "Top",
    "Transaction", "Unfinished", "UnknownField", "UsedUp", "WrongKind", "__version__", "i64", "keyword", "quoted",
    "text", "u64",
]

_OF_THE_LIBRARY = {
    "Busy": "library", "Closed": "library", "Index": "index", "Merge": "index", "Searcher": "index",
    "Transaction": "index", "UsedUp": "library",
}


def __getattr__(name: str) -> Any:
    """The shared object is loaded at the first use of one of these names."""
    if name in _OF_THE_LIBRARY:
        return getattr(importlib.import_module(f"dilforec.{_OF_THE_LIBRARY[name]}"), name)
    raise AttributeError(f"module 'dilforec' has no attribute {name!r}")
