"""One commit of a store, to search."""
from __future__ import annotations

import json
from collections.abc import Iterator, Mapping, Sequence
from dataclasses import dataclass
from typing import Any, NamedTuple, Optional

from dilforec import values
from dilforec.index import GroupsBy, Searcher, replies_to, to_line
from dilforec.service._lines import Key
from dilforec.service._lookups import key_query
from dilforec.service._top import After, TopList
from dilforec.values import Field, GroupCounts, Groups, Stats, Top


class Hit(NamedTuple):
    """A document that was found: its number, the value that it was ordered by, and its fields that have a value."""

    id: int
    value: int
    document: "dict[str, Any]"


@dataclass(frozen=True)
class Answer:
    """What a search found: how many documents, how many with each value of some fields, the first of them.

    `groups` has for each field the values, in rising order, with the number of hits that have it. `commit` is the
    number of the commit that was searched.
    """

    count: int
    groups: "dict[str, GroupCounts]"
    hits: "tuple[Hit, ...]"
    commit: int


# The hits of a search that asks for none.
NEWEST = Top("id", 10, "falling")


class Snapshot:
    """One commit of a store, whatever is done to the store meanwhile. One thread uses it, until it is closed.

        with store.snapshot() as snapshot:
            print(snapshot.commit, snapshot.search("pearls").count)
    """

    def __init__(self, searcher: Searcher, commit: int, key: Optional[Field] = None) -> None:
        self._searcher = searcher
        self.commit = commit
        self._key = key

    def __enter__(self) -> Snapshot:
        return self

    def __exit__(self, *_: object) -> None:
        self.close()

    def close(self) -> None:
        """Gives the commit back."""
        self._searcher.close()

    def __len__(self) -> int:
        """How many documents there are."""
        return self._searcher.search("*").count

    def __bool__(self) -> bool:
        # A commit without documents is one all the same.
        return True

    def search(
        self, query: str, *, groups: Sequence[str] = (), top: Optional[Top] = None,
        fields: Optional[Sequence[str]] = None, after: Optional[After] = None,
    ) -> Answer:
        """How many documents a query finds, how many with each value of some fields, and the first of them.

        Without `top` the hits are the ten newest, by their numbers; of equal values the smaller number comes first.
        With `after`, the value and the number of a hit, they are those after it. `fields` names those of a hit's
        document. A query, a field or a number of hits that the index refuses raises its refusal, as dilforec.Syntax.
        """
        wanted = self._top_list(query, groups, top, fields, after)
        asked = wanted.asked if after is None else None
        found = self._searcher.search(query, groups=list(groups), top=asked, fields=wanted.fields)
        hits = wanted.first(found.hits) if after is None else wanted.rest(after)
        return Answer(found.count, dict(found.groups), tuple(_hit(hit, fields) for hit in hits), self.commit)

    def search_json(
        self, query: str, *, groups: Sequence[str] = (), top: Optional[Top] = None,
        fields: Optional[Sequence[str]] = None, after: Optional[After] = None,
        most: "Optional[Mapping[str, int]]" = None,
    ) -> bytes:
        """What `search` finds, as JSON: the text that the service sends, in which each hit is an object.

        Groups are a list of values with their counts. There may be thousands, and they go as the index wrote them; of a
        field that `most` names, the most frequent ones alone, as many as it says.
        """
        wanted, groups = self._top_list(query, groups, top, fields, after), list(dict.fromkeys(groups))
        asked = wanted.asked if after is None else None
        by: list[GroupsBy] = [Groups(name, most[name]) if most and name in most else name for name in groups]
        replies = [_taken_apart(it) for it in replies_to(self._searcher, query, by, asked, wanted.fields)]
        told = replies[len(replies) - len(groups):]
        counted = b",".join(to_line(name) + b":" + each.groups for name, each in zip(groups, told))
        hits = wanted.first(replies[0].found_hits()) if after is None else wanted.rest(after)
        return b'{"count":%b,"groups":{%b},"hits":%b,"commit":%d}\n' % (
            replies[0].found, counted, to_line([_hit(hit, fields)._asdict() for hit in hits]), self.commit,
        )

    def _top_list(
        self, query: str, groups: Sequence[str], top: Optional[Top], fields: Optional[Sequence[str]],
        after: Optional[After],
    ) -> TopList:
        if after is not None and not (len(after) == 2 and all(type(each) is int for each in after) and after[1] >= 0):
            raise ValueError("`after` is the value and the number of a hit")
        return TopList(self._searcher, query, top or NEWEST, _names(groups, fields))

    def stats(self) -> Stats:
        """How many segments there are, how many documents are in them, and how many of these are live."""
        return self._searcher.stats()

    def get(self, id: int) -> "Optional[dict[str, Any]]":
        """The document of a number, its `id` in it; None if there is none."""
        hits = self._searcher.search(f"id:{id:d}", top=Top("id", 1)).hits
        return hits[0].document if hits else None

    def get_by_key(self, key: Key) -> "Optional[dict[str, Any]]":
        """The document of a key, its `id` in it; None if there is none. ValueError if the store has no key."""
        if self._key is None:
            raise ValueError("the store has no key")
        hits = self._searcher.search(key_query(self._key, key), top=Top("id", 1)).hits
        return hits[0].document if hits else None

    def documents(self, after: int = 0, limit: int = 100) -> "list[dict[str, Any]]":
        """The documents with the smallest numbers above one, at most `limit`, 1 to 10,000; none at the end."""
        found = self._searcher.search(f"id:>{after:d}", top=Top("id", limit))
        return [hit.document for hit in found.hits]

    def ids(self) -> "Iterator[int]":
        """The numbers of all documents, in rising order."""
        after, page = 0, 10_000
        while page == 10_000:
            found = self._searcher.search(f"id:>{after:d}", top=Top("id", 10_000), fields=["id"])
            for hit in found.hits:
                yield hit.value
                after = hit.value
            page = len(found.hits)


class _Reply(NamedTuple):
    """The parts of an index's reply, each as JSON: how many were found, and groups and hits, empty if it has none."""

    found: bytes
    groups: bytes
    hits: bytes

    def found_hits(self) -> "list[values.Hit]":
        """The hits."""
        return [values.Hit(hit["value"], hit["stamp"], hit["doc"]) for hit in json.loads(self.hits.decode())]


def _taken_apart(reply: bytes) -> _Reply:
    # Neither name can stand in what comes before it: a quote in a text is escaped, and after the one that ends it comes
    # a comma.
    head, _, hits = reply[:-len(b"}\n")].partition(b',"top":')
    count, _, groups = head.partition(b',"groups":')
    return _Reply(count[len(b'{"count":'):], groups, hits)


def _names(groups: Sequence[str], fields: Optional[Sequence[str]]) -> "Optional[list[str]]":
    """The fields that the documents of hits need, for their numbers too; None for all."""
    if isinstance(groups, str) or isinstance(fields, str):
        raise TypeError("groups and fields are lists of names")
    return None if fields is None else list(dict.fromkeys([*fields, "id"]))


def _hit(hit: values.Hit, fields: Optional[Sequence[str]]) -> Hit:
    document = hit.document
    id = document["id"]
    if fields is not None and "id" not in fields:
        document = {name: document[name] for name in document if name != "id"}
    return Hit(id, hit.value, document)
