"""Top lists that can be gone on with: by value, and documents of one value by their numbers."""
from __future__ import annotations

from collections.abc import Sequence
from typing import NamedTuple, Optional, Tuple

from dilforec.index import Searching
from dilforec.refusals import TooDeep, TooLong
from dilforec.values import Hit, Top

# The last hit of a page: the value that it is ordered by, and its number.
After = Tuple[int, int]

# The most hits of one search.
_MOST = 10_000


class TopList(NamedTuple):
    """A query's top list, and what is to be in its documents: some fields, `id` among them, or all.

    An index puts the one of equal values first that was written first, and no query can ask for what comes after one.
    So documents of one value are in the order of their numbers here.
    """

    searching: Searching
    query: str
    top: Top
    fields: "Optional[Sequence[str]]"

    @property
    def asked(self) -> Top:
        """The top list that `first` needs: one more hit shows whether there are more of the last value."""
        by, k, order = self.top.by, self.top.k, self.top.order
        return Top(by, k + 1, order) if by != "id" and 0 < k < _MOST else self.top

    def first(self, found: "Sequence[Hit]") -> "list[Hit]":
        """The first k hits, from what the index found for `asked`."""
        try:
            return self._cut(found, self.top.k)
        except (TooLong, TooDeep):
            # The query has no room for the clause that asks for a value, so nobody can go on after these.
            return list(found[: self.top.k])

    def rest(self, after: After) -> "list[Hit]":
        """The first k hits after one. TooLong or TooDeep if the query has no room for the clause that asks for them."""
        value, id = after
        if not self.query.strip():
            return []
        equal = [] if self.top.by == "id" else self._equal(value, self.top.k, id)
        left = self.top.k - len(equal)
        if not left:
            return equal
        beyond = f"{self.top.by}:{'>' if self.top.order == 'rising' else '<'}{value:d}"
        return equal + self._cut(self._search(beyond, self.asked), left)

    def _cut(self, found: "Sequence[Hit]", k: int) -> "list[Hit]":
        """The first k of the first hits by value. Of the last value there may be more than were found."""
        if self.top.by == "id" or not found:
            return list(found[:k])
        whole, last = list(found[:k]), found[: k][-1].value
        is_cut = found[k].value == last if len(found) > k else len(found) == _MOST
        if is_cut:
            whole = [hit for hit in whole if hit.value != last]
        sign = 1 if self.top.order == "rising" else -1
        whole.sort(key=lambda hit: (sign * hit.value, hit.document["id"]))
        return whole + self._equal(last, k - len(whole)) if is_cut else whole

    def _equal(self, value: int, k: int, after: Optional[int] = None) -> "list[Hit]":
        """The first k documents of a value by their numbers, from the one after a number on."""
        clause = f"{self.top.by}:{value:d}" + ("" if after is None else f" +id:>{after:d}")
        return [hit._replace(value=value) for hit in self._search(clause, Top("id", k))]

    def _search(self, clause: str, top: Top) -> "Sequence[Hit]":
        return self.searching.search(f"+({self.query}) +{clause}", top=top, fields=self.fields).hits
