"""What the parameters of a request mean, or why they mean nothing."""
from __future__ import annotations

import re

from dilforec.service._http import bad
from dilforec.values import Top

# Hits of an answer, and documents of a page, at most.
MOST_HITS = 1000
# Fields whose groups one search counts; the values of each, if nothing is said, and at most.
MOST_FIELDS, MOST_VALUES, VALUES = 8, 10_000, 100

# What a query has between its parentheses: ranges, quoted texts, and words. One before a range names its field.
_UNIT = re.compile(r'(?P<range>[\[{][^\]}]*)[\]}]?|"(?P<text>(?:\\.|[^"\\])*)"?|(?P<word>[^\s()"\[\]{}]+)')
_OPERATORS = ("AND", "OR", "NOT", "+", "-")


def number(name: str, text: str) -> int:
    """A number of 64 bits."""
    if not re.fullmatch("[0-9]{1,20}", text) or int(text) >= 1 << 64:
        raise bad("BadParameter", f"{name} is a number from 0 to 18446744073709551615")
    return int(text)


def names(text: str) -> "list[str]":
    """Names of fields with commas between them, each once."""
    return list(dict.fromkeys(name for name in text.split(",") if name))


def limit(text: str) -> int:
    """How many documents a page has."""
    found = number("limit", text)
    if not 1 <= found <= MOST_HITS:
        raise bad("BadLimit", f"a page has 1 to {MOST_HITS} documents")
    return found


def after(text: str) -> "tuple[int, int]":
    """The last hit of the page before: the value that it is ordered by, and its number."""
    found = re.fullmatch("(-?[0-9]{1,20}),([0-9]{1,20})", text)
    if not found:
        raise bad("BadParameter", "after is the value and the id of a hit, as 1986,7")
    return int(found[1]), number("the id of `after`", found[2])


def top(text: str) -> Top:
    """A top list."""
    words = text.split(",")
    if len(words) != 3 or words[2] not in ("rising", "falling"):
        raise bad("BadParameter", "top is by,k,order: a number field, how many, and rising or falling")
    most = number("k", words[1])
    if not 1 <= most <= MOST_HITS:
        raise bad("BadLimit", f"a search has 1 to {MOST_HITS} hits")
    return Top(words[0], most, "rising" if words[2] == "rising" else "falling")


def groups(text: str) -> "dict[str, int]":
    """The fields whose groups are counted, each with how many of its values are told, the most frequent ones."""
    found: "dict[str, int]" = {}
    for name in names(text):
        field, colon, most = name.partition(":")
        found[field] = number("the number of values", most) if colon else VALUES
        if not 1 <= found[field] <= MOST_VALUES:
            raise bad("BadLimit", f"groups have 1 to {MOST_VALUES} values")
    if len(found) > MOST_FIELDS:
        raise bad("TooManyGroups", f"a search counts the groups of {MOST_FIELDS} fields at most")
    return found


def check_clauses(query: str, most: int) -> None:
    """Refuses a query of too many clauses: words, each of a phrase too, and ranges."""
    count = sum(_clauses(unit) for unit in _UNIT.finditer(query))
    if count > most:
        raise bad("TooManyClauses", f"the query has {count} words and ranges, and {most} are the most")


def _clauses(unit: "re.Match[str]") -> int:
    """How many clauses a unit of a query is."""
    word = unit["word"]
    if unit["range"] is None and (word in _OPERATORS or (word or "").endswith(":")):
        return 0
    text = unit["text"] if word is None else word.rpartition(":")[2]
    return max(1, len(re.findall(r"\w+", text or "")))
