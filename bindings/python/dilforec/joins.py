"""One answer over several parts of the documents, made of the answers over each part.

    >>> search = {"query": "rust", "groups": "shelf"}
    >>> answer(search, [{"count": 2, "groups": [["a", 1], ["b", 1]]}, {"count": 1, "groups": [["b", 1]]}])
    {'count': 3, 'groups': [['a', 1], ['b', 2]]}

However the documents were cut into parts, the count and the groups are those of one index over all of them, and so are
the values of the top list. Its documents are the same too if no two have one value: of documents with equal values
those of an earlier part come first, and within a part those of smaller stamps.

This is what an index does with its segments. The module needs nothing of the library.

A long top list over many parts needs few hits of each: ask each part for `share(k, parts)` hits, join what they give by
`top`, and ask those that `parts_to_ask_again` names once more, for k.
"""
from __future__ import annotations

import collections
import json
import math
from collections.abc import Iterable, Mapping, Sequence
from typing import Any, Optional

# As docs/SCRIPT.md has it: {"count": 1, "groups": [["a", 1]], "top": [{"doc": {..}, "stamp": 3, "value": 1986}]}.
Reply = dict[str, Any]
# In rising order of the values: numbers as numbers, keywords by their UTF-8 bytes.
Groups = list[list[Any]]
Hits = list[dict[str, Any]]


def groups(lists: Iterable[Groups]) -> Groups:
    """The groups of all parts, value by value: the counts of equal values are added.

    The values are numbers or keywords, one kind in all lists. Python orders texts by code points, as UTF-8 bytes do.
    """
    counts: dict[Any, int] = {}
    for part in lists:
        for value, count in part:
            counts[value] = counts.get(value, 0) + count
    return [[value, counts[value]] for value in sorted(counts)]


def top(lists: Iterable[Hits], k: int, order: str) -> list[tuple[int, dict[str, Any]]]:
    """The first k hits of all parts, each with the number of its part, from 0: by value, then part, then stamp.

    Each list is in its own order by value and stamp, and has the first k hits of its part, or all if they are fewer.
    `order` is "rising" or "falling", of the values; of equal values, smaller parts and stamps come first in both.
    """
    sign = -1 if order == "falling" else 1
    hits = [(part, hit) for part, found in enumerate(lists) for hit in found]
    # Sorting is stable, so parts and stamps keep their order.
    hits.sort(key=lambda found: sign * int(found[1]["value"]))
    return hits[:k]


def share(k: int, parts: int) -> int:
    """How many hits to ask each part for at first, if the first k of all of them are wanted.

    Of documents that are dealt out at random, a part has k / parts of the first k, give or take a few times the square
    root of that. If it has more of them, it is asked again.
    """
    each = k / parts
    return min(k, math.ceil(each + 4 * math.sqrt(each)) + 10)


def parts_to_ask_again(first: Iterable[int], asked: int) -> list[int]:
    """The parts whose lists have to be asked for again, for k hits, rising.

    Each part gave its first `asked` hits, or all it has. `first` has the part of each of the first k hits of these
    lists. A part whose last hit isn't among the first k has no other that is, so it gave enough.

        >>> parts_to_ask_again([0, 1, 1, 2], asked=2)
        [1]
    """
    given = collections.Counter(first)
    return sorted(part for part, count in given.items() if count >= asked)


def answer(
    search: Mapping[str, Any], replies: Sequence[Reply], marks: Optional[Sequence[Mapping[str, Any]]] = None,
) -> Reply:
    """The reply to a search over all parts, from the replies of each part, none of them a refusal.

    `search` is the value of the command, `{"query": .., "groups": .., "top": ..}`. A hit gets the members of its part's
    mark, which says where its stamp is from, such as {"shard": 2}.
    """
    joined: Reply = {"count": sum(reply["count"] for reply in replies)}
    if "groups" in search:
        joined["groups"] = groups(reply["groups"] for reply in replies)
    if "top" in search:
        first = top((reply["top"] for reply in replies), search["top"]["k"], search["top"]["order"])
        joined["top"] = [{**hit, **(marks[part] if marks else {})} for part, hit in first]
    return joined


def encoded(reply: Mapping[str, Any]) -> bytes:
    """A reply as an index writes it: in UTF-8, its members in the order of their names, no white space, and an LF."""
    return json.dumps(reply, ensure_ascii=False, separators=(",", ":"), sort_keys=True).encode() + b"\n"
