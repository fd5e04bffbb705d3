"""What the last commit has of documents that are known by a number or a key."""
from __future__ import annotations

from collections.abc import Iterable
from typing import Optional

from dilforec.index import LONGEST_QUERY, Searching
from dilforec.service._lines import Key
from dilforec.service._versions import version_of
from dilforec.values import Field, Top, quoted

_MOST_HITS = 10_000


class Lookups:
    """Looks documents up, each number and each key once."""

    def __init__(self, index: Searching, key: Optional[Field]) -> None:
        self._index, self._key = index, key
        self._keys: "dict[int, Optional[Key]]" = {}
        self._there: "dict[int, bool]" = {}
        self._ids: "dict[Key, list[int]]" = {}
        self._versions: "dict[int, Optional[str]]" = {}

    def is_there(self, id: int) -> bool:
        """Whether there is a document of a number."""
        if id not in self._there:
            if self._key is None:
                self._there[id] = self._index.search(f"id:{id:d}").count > 0
            else:
                hits = self._index.search(f"id:{id:d}", top=Top("id", 1), fields=["id", self._key.name]).hits
                self._there[id] = bool(hits)
                self._keys[id] = hits[0].document.get(self._key.name) if hits else None
        return self._there[id]

    def key_of(self, id: int) -> Optional[Key]:
        """The key of a document that is there."""
        self.is_there(id)
        return self._keys.get(id)

    def ids_of(self, key: Key) -> "list[int]":
        """The numbers of the documents that have a key, in rising order: one at most, if all were added by keys."""
        self.prepare([key])
        return self._ids[key]

    def version(self, id: int) -> Optional[str]:
        """The version of the document of a number, None if there is none."""
        if id not in self._versions:
            hits = self._index.search(f"id:{id:d}", top=Top("id", 1)).hits
            self._versions[id] = version_of(hits[0].document) if hits else None
        return self._versions[id]

    def prepare(self, keys: Iterable[Key]) -> None:
        """Looks keys up, as many as one query takes at a time."""
        if self._key is None:
            return
        asked: "list[str]" = []
        size = 0
        for key in keys:
            if key not in self._ids:
                self._ids[key] = []
                word = key_query(self._key, key)
                if size + len(word.encode()) >= LONGEST_QUERY:
                    self._look(asked)
                    asked, size = [], 0
                asked.append(word)
                size += len(word.encode()) + 1
        self._look(asked)

    def _look(self, asked: "list[str]") -> None:
        if asked and self._key is not None:
            name = self._key.name
            for hit in self._index.search(" ".join(asked), top=Top("id", _MOST_HITS), fields=["id", name]).hits:
                key = hit.document[name]
                self._ids[key].append(hit.value)
                self._there[hit.value], self._keys[hit.value] = True, key


def key_query(field: Field, key: Key) -> str:
    """The query that finds what has a key."""
    return f"{field.name}:{quoted(key) if isinstance(key, str) else key}"
