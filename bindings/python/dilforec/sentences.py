"""What is wrong with what was refused, as far as a call can tell: the field, and the value."""
from __future__ import annotations

import re
import reprlib
from collections.abc import Mapping, Sequence
from typing import Any, Optional

from dilforec.values import Field, Top

Schema = Sequence[Field]

U64, I64 = range(2**64), range(-(2**63), 2**63)
LONGEST_TEXT, LONGEST_KEYWORD, MOST_TEXTS, DEEPEST = 1_048_576, 256, 1024, 32


def kinds(schema: Schema) -> dict[str, str]:
    return {field.name: field.kind for field in schema}


def size(text: str) -> int:
    return len(text.encode("utf-8", "surrogatepass"))


def is_of(kind: str, value: Any) -> bool:
    """Whether a field of a kind takes a value."""
    if value is None:
        return True
    if kind in ("u64", "i64"):
        return isinstance(value, int) and not isinstance(value, bool) and value in (U64 if kind == "u64" else I64)
    if isinstance(value, (list, tuple)):
        return kind == "text" and all(isinstance(each, str) for each in value)
    return isinstance(value, str)


def fault_of(name: str, kind: Optional[str], field: str, value: Any) -> str:
    """What a member of a document has to do with a refusal; nothing if it isn't the cause."""
    texts = list(value) if isinstance(value, (list, tuple)) else [value]
    long = sum(size(each) for each in texts if isinstance(each, str))
    if name == "UnknownField" and kind is None:
        return f"the schema has no field {field!r}"
    if name == "WrongKind" and kind is not None and not is_of(kind, value):
        return f"{field!r} is a {kind} field, and can't be {reprlib.repr(value)}"
    if name == "TextTooLong" and kind == "text" and long > LONGEST_TEXT:
        return f"the text of {field!r} has {long:,} bytes, and {LONGEST_TEXT:,} are the most"
    if name == "TooManyTexts" and kind == "text" and len(texts) > MOST_TEXTS:
        return f"{field!r} has {len(texts):,} texts, and {MOST_TEXTS:,} are the most"
    if name == "KeywordTooLong" and kind == "keyword" and long > LONGEST_KEYWORD:
        return f"the keyword of {field!r} has {long:,} bytes, and {LONGEST_KEYWORD} are the most"
    return ""


def of_document(name: str, schema: Schema, document: Mapping[str, Any]) -> str:
    """Why a document, or the value of a delete, was refused; nothing if it can't be told."""
    known = kinds(schema)
    faults = (fault_of(name, known.get(field), field, document[field]) for field in sorted(document, key=str))
    return next(filter(None, faults), "") if known else ""


def of_search(name: str, schema: Schema, query: str, groups: Sequence[str], top: Optional[Top],
              fields: Sequence[str]) -> str:
    """Why a search was refused; nothing if it can't be told."""
    known = kinds(schema)
    if name == "BadLimit" and top:
        return f"a top list has 1 to 10,000 hits, not {top.k:,}"
    if name == "UnknownField" and known:
        named = [*names_in(query), *groups, *([top.by] if top else []), *fields]
        return next((f"the schema has no field {field!r}" for field in named if field not in known), "")
    if name == "NotANumberField" and known:
        for field in groups:
            if known.get(field) == "text":
                return f"{field!r} is a text field, and groups are by a keyword or a number"
        if top and known.get(top.by) in ("text", "keyword"):
            return f"{top.by!r} is a {known[top.by]} field, and a top list is by a number"
    return ""


def of_syntax(query: str, at: Optional[int]) -> str:
    """Where a query couldn't be read any further."""
    if at is None:
        return ""
    return f"the query can't be read from {reprlib.repr(query[at:])} on" if query[at:] else "the query ends too early"


def names_in(query: str) -> list[str]:
    """The names before a colon in a query, outside of quoted texts."""
    bare = re.sub(r'"(?:[^"\\]|\\.)*"', '""', query)
    return re.findall(r"([^\s():\"\[\]{}<>^~*\\]+):", bare)


def depth(query: str) -> int:
    """How deep the parentheses of a query nest, those in quoted texts left out."""
    deepest = now = 0
    for each in re.sub(r'"(?:[^"\\]|\\.)*(?:"|$)', "", query):
        now = max(now + (each == "(") - (each == ")"), 0)
        deepest = max(deepest, now)
    return deepest


def is_group(query: str) -> bool:
    """Whether a query is one pair of parentheses, with all else in it."""
    bare = re.sub(r'"(?:[^"\\]|\\.)*(?:"|$)', "", query.strip())
    now = 0
    for place, each in enumerate(bare):
        now += (each == "(") - (each == ")")
        if now <= 0:
            return bare[:1] == "(" and place == len(bare) - 1 and query.strip()[-1:] == ")"
    return False
